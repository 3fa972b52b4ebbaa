#!/usr/bin/env python3
"""Decodes a syndrome of a repetition code, in the steps that a user of PyMatching knows: edges with weights, a
syndrome as a list of 0 and 1.

In PyMatching this graph is

    m = pymatching.Matching()
    m.add_boundary_edge(0, weight=2.2, fault_ids=0)
    m.add_edge(0, 1, weight=4.6, fault_ids=1)
    ...
    m.decode([1, 0, 1, 0])

Here weights are even whole numbers, and a boundary edge leads to a virtual vertex of its own.
"""
from cluster_growth import Conflict, DualModule, Refused, match

# five data qubits, four stabilizers 0 to 3; 4 and 5 are the open ends
WEIGHTS = [2.2, 4.6, 4.6, 4.6, 2.2]
ENDS = [(4, 0), (0, 1), (1, 2), (2, 3), (3, 5)]
edges = [(a, b, 2 * round(50 * w)) for (a, b), w in zip(ENDS, WEIGHTS)]
syndrome = [1, 0, 1, 0]

module = DualModule(6, edges, virtual=[4, 5])
nodes = module.insert_syndrome(syndrome)

# by hand: how far can the first defect grow, and what stops it then?
first = module.advance(nodes[0])
print(f'the defect at vertex 0 moved by {first.by}; now it answers {module.advance(nodes[0])!r}')
print(f'its dual variable is {module.read_node(nodes[0]).dual}, and edge 0 has grown by {module.read_table()[0]}')

# and all of it: the defects grow together, those that meet are paired
module.clear()
module.insert_syndrome(syndrome)
found = match(module)
correction = [1 if e in found.edges else 0 for e in range(len(edges))]
print(f'correction {correction}, cost {found.cost}; no correction costs less than {found.dual_sum}')

# a call that is turned down has a number and a sentence
try:
    module.insert_defect(4)
except Refused as e:
    print(f'{e.number}: {e.sentence}')

# two that grow towards each other over an odd gap of 1 conflict although they do not touch
odd = DualModule(2, [(0, 1, 5)])
a, b = odd.insert_syndrome([1, 1])
odd.grow(a, 2)
odd.grow(b, 2)
answer = odd.max_update_length(a)
assert isinstance(answer, Conflict) and sum(odd.read_table()[0]) == 4
print(f'at growths 2 and 2 of 5: {answer!r}')
