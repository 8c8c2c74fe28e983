#!/usr/bin/env python3
"""Writes an input for `compose` of a kind and a size to standard output.

    listings.py KIND ROWS

The kinds, each with ROWS rows in G and in F:
  chain   one chain of nodes in G and one in F, children numbered below their parents, F's chain under G's
  flat    nodes of four ports in one region, on shared closed links and on outer names
  wide    ROWS sites and inner names in G, as many regions and outer names in F
"""
import sys


def section(word, rows):
    return ["%s %d" % (word, len(rows))] + rows


def big(regions, sites, inner, outer, edges, nodes):
    lines = ["bigraph %d" % regions]
    for word, rows in (("sites", sites), ("inner", inner), ("outer", outer), ("edges", edges), ("nodes", nodes)):
        lines += section(word, rows)
    return lines


def chain(rows):
    signature = ["signature 1", "Room 0 normal"]
    # node 0 lies deepest: node v lies in node v + 1, and the last in the region
    upper = ["%d Room %s" % (rows + v, "n%d" % (rows + v + 1) if v + 1 < rows else "r0") for v in range(rows)]
    lower = ["%d Room %s" % (v, "n%d" % (v + 1) if v + 1 < rows else "r0") for v in range(rows)]
    return signature + big(1, ["n%d" % rows], [], [], [], upper) + big(1, [], [], [], [], lower)


def flat(rows):
    signature = ["signature 1", "Agent 4 atomic"]
    names = sorted("x%d" % i for i in range(64))
    edges = [str(e) for e in range(rows // 2)]
    own = [str(rows + e) for e in range(rows // 2)]
    upper = ["%d Agent r0 #%d #%d =a =b" % (v, v // 2 % (rows // 2), (v * 7) % (rows // 2)) for v in range(rows)]
    lower = ["%d Agent r0 #%d #%d =%s =%s" % (rows + v, rows + v // 2 % (rows // 2), rows + (v * 5) % (rows // 2), names[v % 64], names[(v * 3) % 64]) for v in range(rows)]
    inner = ["%s %s" % (y, "#%d" % (i % (rows // 2)) if i % 2 else "=a") for i, y in enumerate(names)]
    return signature + big(1, ["r0"], inner, ["a", "b"], edges, upper) + big(1, [], [], names, own, lower)


def wide(rows):
    signature = ["signature 1", "Agent 1 atomic"]
    names = sorted("x%d" % i for i in range(rows))
    inner = ["%s =%s" % (y, "a" if i % 2 else "b") for i, y in enumerate(names)]
    lower = ["%d Agent r%d =%s" % (v, v, names[v]) for v in range(rows)]
    return signature + big(1, ["r0"] * rows, inner, ["a", "b"], [], []) + big(rows, [], [], names, [], lower)


KINDS = {"chain": chain, "flat": flat, "wide": wide}

if len(sys.argv) != 3 or sys.argv[1] not in KINDS:
    sys.exit(__doc__)
sys.stdout.write("\n".join(KINDS[sys.argv[1]](int(sys.argv[2]))) + "\n")
