"""How many edges away each node of a graph is from node 0, and -1 if no path leads there: by a queue."""
from collections import deque

neighbours = [[1, 4], [0, 2], [1, 3], [2, 4, 5], [0, 3], [3, 6], [5], [8], [7]]
distances = [0, *[-1] * (len(neighbours) - 1)]
queue = deque([0])
while queue:
    node = queue.popleft()
    for neighbour in neighbours[node]:
        if distances[neighbour] < 0:
            distances[neighbour] = distances[node] + 1
            queue.append(neighbour)
print(f"INT ({' '.join(map(str, distances))})")
