"""The least node of the component of each node: labels are handed on along edges and then shortened, until all agree."""


def least(label: list[int], edges: list[list[int]]) -> list[int]:
    return [min(own, min([label[other] for other in others])) if len(others) > 0 else own
            for own, others in zip(label, edges)]


def shortened(label: list[int]) -> list[int]:
    return [label[node] for node in label]


def settled(label: list[int], edges: list[list[int]]) -> list[int]:
    after = shortened(least(label, edges))
    return label if all([a == b for a, b in zip(label, after)]) else settled(after, edges)


def main(edges: list[list[int]]) -> list[int]:
    return settled([i for i in range(len(edges))], edges)
