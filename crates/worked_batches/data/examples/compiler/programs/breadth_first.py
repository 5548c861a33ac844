"""How many edges each node of a graph is from the first, a frontier at a time; -1 if there is no way."""


def sort(v: list[int]) -> list[int]:
    if len(v) < 2:
        return v
    pivot = v[len(v) // 2]
    equal = [x for x in v if x == pivot]
    parts = [sort(part) for part in [[x for x in v if x < pivot], [x for x in v if x > pivot]]]
    return parts[0] + equal + parts[1]


def distinct(nodes: list[int]) -> list[int]:
    ordered = sort(nodes)
    return [ordered[i] for i in range(len(ordered)) if i == 0 or ordered[i] != ordered[i - 1]]


def search(edges: list[list[int]], steps: list[int], frontier: list[int], depth: int) -> list[int]:
    if len(frontier) == 0:
        return steps
    found = distinct([other for node in frontier for other in edges[node] if steps[other] < 0])
    return search(edges, put(steps, [(node, depth) for node in found]), found, depth + 1)


def main(edges: list[list[int]]) -> list[int]:
    return search(edges, put([-1 for _ in edges], [(0, 0)]), [0], 1)
