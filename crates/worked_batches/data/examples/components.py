"""The least node of each node's component, and the number of components: by joining sets."""
neighbours = [[4, 7], [6, 8], [5], [6, 9], [0, 7], [2], [1, 3], [0, 4], [1], [3], []]
component = {node: {node} for node in range(len(neighbours))}
for node, others in enumerate(neighbours):
    for other in others:
        joined = component[node] | component[other]
        component.update(dict.fromkeys(joined, joined))
print(f"INT ({' '.join(str(min(component[node])) for node in range(len(neighbours)))})")
print(f"INT ({len(set(map(min, component.values())))})")
