#!/usr/bin/env python3
"""Compares House table with networkx's shortest paths, on random houses and random orders of steps.

usage: networkx_check.py PROGRAM WORK [HOUSES [SEED]]     PROGRAM is target/bin/house_table, WORK a folder for a failing input
"""
import pathlib
import random
import re
import subprocess
import sys
import time

import networkx

USED = 65000  # House table reads no further
COUNTS = re.compile(r"taken (\d+) idle (\d+) unknown (\d+) stopped (\d+)")


class Wrong(Exception):
    """What the program printed is not what networkx says."""


def pairs_of(chance, n):
    """Which tails and heads have an arc: one of the shapes that houses have."""
    every = [(t, h) for t in range(1, n + 1) for h in range(1, n + 1) if t != h]
    order = chance.sample(range(1, n + 1), n)
    line = list(zip(order, order[1:]))
    shape = chance.choice(["sparse", "half", "full", "ring", "line", "both ways", "star", "islands"])
    if shape in ("sparse", "half", "full"):
        share = {"sparse": 1.6 / n, "half": 0.5, "full": 1.0}[shape]
        return [pair for pair in every if chance.random() < share]
    if shape == "ring":
        return line + [(order[-1], order[0])] if n > 1 else []
    if shape == "line":
        return line
    if shape == "both ways":
        return line + [(h, t) for t, h in line]
    if shape == "star":
        return [pair for pair in every if order[0] in pair]
    return [(t, h) for t, h in every if t % 3 == h % 3 and chance.random() < 0.7]


def random_house(chance):
    n = chance.choice([1, 2, 3, 4, 5, 6, 8, 11, 14, 16])
    lmax = chance.choice([1, 2, 3, 7, 15])
    # few lengths make many ties
    top = chance.choice([1, min(2, lmax), lmax])
    pairs = list(dict.fromkeys(pairs_of(chance, n)))
    chance.shuffle(pairs)
    return n, lmax, [(t, h, chance.randint(1, top)) for t, h in pairs]


def network_bytes(n, lmax, arcs):
    digits = f"1{n - 1:x}{lmax:x}0{len(arcs):02x}" + "".join(f"{t - 1:x}{h - 1:x}{l:x}" for t, h, l in arcs)
    return bytes.fromhex(digits + "0" * (len(digits) % 2))


def more_steps(chance, n, arcs):
    """A piece of a random order: in turn, in bursts, or with some arcs left out for a while; starts come late and early."""
    order = [chance.randrange(n) for _ in range(chance.randint(0, 3))]
    late = set(chance.sample(range(len(arcs)), len(arcs) // 3))
    style = chance.choice(["turn", "bursts", "some late"])
    for k in chance.sample(range(len(arcs)), len(arcs)):
        if style == "turn" or k not in late:
            order += [16 + k] * (chance.randint(1, 6) if style == "bursts" else 1)
    chance.shuffle(order)
    return order


def run(program, data):
    text = subprocess.run([program], input=data, capture_output=True, text=False, check=True).stdout.decode("ascii").splitlines()
    counts = COUNTS.fullmatch(text[0])
    if not counts:
        raise Wrong(f"first line: {text[0]}")
    return [int(count) for count in counts.groups()], [tuple(line.split(" ")) for line in text[1:]]


def truth_of(n, arcs):
    """For each node and target networkx's distance and the lowest-numbered neighbour on a shortest chain."""
    graph = networkx.DiGraph()
    graph.add_nodes_from(range(1, n + 1))
    graph.add_weighted_edges_from(arcs, weight="length")
    far = dict(networkx.all_pairs_dijkstra_path_length(graph, weight="length"))
    truth = {}
    for i in range(1, n + 1):
        for y, distance in far[i].items():
            ways = [h for h in graph.successors(i) if y in far[h] and graph[i][h]["length"] + far[h][y] == distance]
            truth[i, y] = (distance, 0 if i == y else min(ways))
            if n <= 5 and i != y:
                # the same by listing the chains
                chains = networkx.all_shortest_paths(graph, i, y, weight="length")
                assert truth[i, y][1] == min(chain[1] for chain in chains)
    return truth


def compare(n, truth, steps, counts, lines):
    """Every filled entry and every "unreachable" must be networkx's; gives how many entries are unknown."""
    if sum(counts[:3]) != steps:
        raise Wrong(f"{counts} do not add up to {steps} steps")
    if [line[:2] for line in lines] != [(str(i), str(y)) for i in range(1, n + 1) for y in range(1, n + 1)]:
        raise Wrong("not a line for each node and target in rising order")
    unsure, sure = set(), set()
    for i, y, distance, hop in lines:
        right = truth.get((int(i), int(y)))
        if distance == "?" and hop == "?":
            unsure.add(i)
        elif (distance, hop) == ("-", "-"):
            sure.add(i)
            if right is not None:
                raise Wrong(f"{i} to {y} is unreachable, and networkx says {right}")
        elif right != (int(distance), int(hop)):
            raise Wrong(f"{i} to {y} is {distance} by {hop}, and networkx says {right}")
    # a node with an unknown entry has not stopped, one with an unreachable entry has
    if not len(sure) <= counts[3] <= n - len(unsure):
        raise Wrong(f"{counts[3]} stopped, but {len(unsure)} with unknown and {len(sure)} with unreachable entries")
    return sum(line[2] == "?" for line in lines)


def check_house(chance, program, keep):
    """One house: two short orders, then one that grows until every node has stopped. Gives whether it came so far, and the entries."""
    n, lmax, arcs = random_house(chance)
    network = network_bytes(n, lmax, arcs)
    truth = truth_of(n, arcs)
    for _ in range(2):
        steps = bytes(chance.choice([chance.randrange(256), chance.randrange(16 + len(arcs))]) for _ in range(chance.randint(0, 40 * n)))
        keep.write_bytes(network + steps)
        compare(n, truth, len(steps), *run(program, network + steps))
    steps, stopped = chance.sample(range(n), chance.randint(0, n)), 0
    while stopped < n and len(network) + len(steps) < USED:
        for _ in range(10 + len(steps) // (len(arcs) + 1)):
            steps += more_steps(chance, n, arcs)
        steps += range(n)
        keep.write_bytes(network + bytes(steps))
        counts, lines = run(program, network + bytes(steps))
        unknown = compare(n, truth, min(len(steps), USED - len(network)), counts, lines)
        stopped = counts[3]
    if stopped == n and unknown:
        raise Wrong(f"all have stopped, and {unknown} entries are unknown")
    return stopped == n, n * n


def main():
    if len(sys.argv) not in (3, 4, 5):
        sys.exit(__doc__)
    program, work = sys.argv[1], pathlib.Path(sys.argv[2])
    houses = int(sys.argv[3]) if len(sys.argv) > 3 else 3000
    seed = int(sys.argv[4]) if len(sys.argv) > 4 else random.randrange(10**9)
    work.mkdir(parents=True, exist_ok=True)
    keep = work / "input"
    chance, began = random.Random(seed), time.monotonic()
    passed = failed = complete = entries = 0
    print(f"seed {seed}", flush=True)
    for count in range(houses):
        try:
            done, filled = check_house(chance, program, keep)
            passed += 1
            complete += done
            entries += filled if done else 0
        except (Wrong, ValueError, subprocess.CalledProcessError) as wrong:
            failed += 1
            keep.replace(work / f"failed_{seed}_{count}")
            print(f"house {count}: {wrong}; the input is {work / f'failed_{seed}_{count}'}", flush=True)
    # an order that is too short for the last node to stop shows less: there must not be many
    if complete < 0.95 * passed:
        failed += 1
        print(f"only {complete} houses were run to the end")
    print(f"networkx: {passed:,} houses agree, {complete:,} of them run to the end with {entries:,} entries, {time.monotonic() - began:.0f} s")
    print(f"{passed} passed, {failed} failed")
    sys.exit(failed > 0 or passed == 0)


if __name__ == "__main__":
    main()
