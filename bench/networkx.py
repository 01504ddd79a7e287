#!/usr/bin/env python3
"""networkx: reads the bench's table and prints, for each family at its largest size, the time that networkx takes to find the vertex
connectivity of such a graph, in searches of the same run. Prints one line and nothing else where networkx is not installed."""
import random
import re
import sys
import time

sys.path = [p for p in sys.path if not p.endswith("bench")]
try:
    import networkx
except ImportError:
    sys.exit(print("networkx is not installed: no comparison"))

ROW = re.compile(r"^(?P<family>[a-z3].*?) {2,}(?P<n>\d+) +(?P<m>\d+) +(?P<grade>\d) +(?P<search>[\d.]+) \|")


def random_graph(n, m, rng):
    graph = networkx.cycle_graph(n)
    while graph.number_of_edges() < m:
        graph.add_edge(*rng.sample(range(n), 2))
    return graph


def planted_pair(n, m, rng):
    graph = networkx.Graph()
    half = n // 2
    for vertices in (range(half + 1), range(half - 1, n)):
        graph.update(networkx.cycle_graph(vertices))
        goal = graph.number_of_edges() + (m - n - 2) // 2
        while graph.number_of_edges() < goal:
            graph.add_edge(*rng.sample(vertices, 2))
    return graph


def three_tree(n, rng):
    graph = networkx.complete_graph(4)
    triangles = [(0, 1, 2), (0, 1, 3), (0, 2, 3), (1, 2, 3)]
    for v in range(4, n):
        a, b, c = rng.choice(triangles)
        graph.add_edges_from([(a, v), (b, v), (c, v)])
        triangles += [(a, b, v), (a, c, v), (b, c, v)]
    return graph


def build(family, n, m, rng):
    if family == "wheel":
        return networkx.wheel_graph(n)
    if family == "prism":
        return networkx.circular_ladder_graph(n // 2)
    if family == "3-tree":
        return three_tree(n, rng)
    if family == "complete graph":
        return networkx.complete_graph(n)
    if family == "random cubic":
        return networkx.random_regular_graph(3, n, seed=rng.randrange(1 << 30))
    return planted_pair(n, m, rng) if family == "planted pair" else random_graph(n, m, rng)


def main():
    rng = random.Random(20261115)
    rows = [row for row in map(ROW.match, sys.stdin) if row and not re.search("in order|hostile", row["family"])]
    largest = {row["family"]: row for row in rows}
    print("networkx.node_connectivity, one call on one graph of the family")
    for family, row in largest.items():
        graph = build(family, int(row["n"]), int(row["m"]), rng)
        begun = time.process_time()
        networkx.node_connectivity(graph)
        taken = time.process_time() - begun
        print(f"{family:24} {row['n']:>4} {graph.number_of_edges():>5} {taken * 1e3:9.1f} ms {taken * 1e6 / float(row['search']):11.0f} searches")


main()
