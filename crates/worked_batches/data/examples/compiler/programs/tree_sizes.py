"""How many nodes are below each node of a tree, itself among them. The recursion ends where there are no children."""


def size(children: list[list[int]], node: int) -> int:
    return 1 + sum([size(children, child) for child in children[node]])


def main(children: list[list[int]]) -> list[int]:
    return [size(children, node) for node in range(len(children))]
