"""From points to a seed: a neighbour graph with SciPy, its spectral seed, and the digests by which others see that they have the same."""
import numpy as np
import threshcinch
from scipy import sparse, spatial

# three heaps of points in space, each point with its ten nearest neighbours
points = np.random.default_rng(1).random((300, 3)) + np.repeat(np.eye(3) * 1.5, 100, axis=0)
distances, neighbours = spatial.cKDTree(points).query(points, k=11)
weights = 1 / (1 + distances[:, 1:] ** 2)
graph = sparse.csr_matrix((weights.ravel(), neighbours[:, 1:].ravel(), np.arange(0, 3001, 10)), shape=(300, 300))

# a neighbour of one is made a neighbour of both, so that the graph is symmetric; the order of entries counts to the last bit
graph = (graph + graph.T).tocsr()
graph.sum_duplicates()
seed, counts = threshcinch.spectral_embedding(graph, dims=2)

print(counts)
for heap in range(3):
    print("heap", heap, "lies around", seed[100 * heap : 100 * heap + 100].mean(axis=0))
print("graph", threshcinch.graph_digest(graph))
print("seed ", threshcinch.seed_digest(seed))
