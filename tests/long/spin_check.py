#!/usr/bin/env python3
"""Has spin look at every order of steps of small houses: document 01's method as method.pml has it, and wrong methods that must be caught.

usage: spin_check.py WORK     WORK is a folder for what spin makes
"""
import pathlib
import re
import shutil
import subprocess
import sys
import time

HERE = pathlib.Path(__file__).resolve().parent
NONE = 255
TIME_LIMIT = 900  # seconds for one house; a search that is cut off has shown nothing


def both_ways(*pairs):
    return [arc for t, h, l in pairs for arc in ((t, h, l), (h, t, l))]


# name, n, LMAX, arcs (tail, head, length)
Q = ("Q of document 01", 3, 4, [(1, 2, 1), (2, 3, 1), (1, 3, 2), (3, 1, 4)])
HOUSES = [
    Q,
    ("one way between two", 2, 1, [(1, 2, 1)]),
    ("a pair, unlike lengths", 2, 5, [(1, 2, 2), (2, 1, 5)]),
    ("a line of four, one way", 4, 3, [(1, 2, 3), (2, 3, 1), (3, 4, 2)]),
    ("a line of four, both ways", 4, 3, both_ways((1, 2, 1), (2, 3, 3), (3, 4, 2))),
    ("a ring of three, each at LMAX", 3, 4, [(1, 2, 4), (2, 3, 4), (3, 1, 4)]),
    ("a ring of four", 4, 2, [(1, 2, 1), (2, 3, 2), (3, 4, 1), (4, 1, 2)]),
    ("a ring of four, both ways", 4, 1, both_ways((1, 2, 1), (2, 3, 1), (3, 4, 1), (4, 1, 1))),
    ("ties: two ways round", 4, 2, [(1, 3, 1), (1, 2, 1), (2, 4, 1), (3, 4, 1), (4, 1, 2)]),
    ("ties: three equal ways", 4, 3, [(1, 4, 3), (1, 3, 2), (1, 2, 1), (2, 4, 2), (3, 4, 1), (2, 3, 1), (4, 2, 1)]),
    ("two islands", 4, 2, both_ways((1, 3, 2), (2, 4, 1))),
    ("a lone node beside a ring", 4, 2, [(1, 2, 1), (2, 4, 2), (4, 1, 1)]),
    ("heard by nobody, hears nobody", 4, 2, [(1, 2, 1), (2, 1, 2), (2, 3, 1), (4, 1, 2)]),
    ("all of three, unlike lengths", 3, 4, [(1, 2, 1), (2, 1, 3), (1, 3, 4), (3, 1, 1), (2, 3, 2), (3, 2, 4)]),
    ("a star, both ways", 4, 3, both_ways((1, 2, 1), (1, 3, 2), (1, 4, 3))),
]
# n, LMAX: every house of that size in one search
SIZES = [(2, 4), (3, 1), (3, 2)]
# what is wrong, and the house that shows it
MUTANTS = [
    ("STOP_EARLY", "stops when x equals LP + LMAX", Q),
    ("SILENT_WAIT", "sends no length before waiting", Q),
    ("TIE_BY_ARRIVAL", "takes a tie by arrival", Q),
    ("CLEAR_AT_START", "loses what came before the start", Q),
]


def shortest(n, arcs):
    """Floyd and Warshall's distances, and of the first hops that reach them the lowest."""
    far = 10**6
    span = range(1, n + 1)
    d = {(i, y): 0 if i == y else far for i in span for y in span}
    d.update({(t, h): l for t, h, l in arcs})
    for via in span:
        for i in span:
            for y in span:
                d[i, y] = min(d[i, y], d[i, via] + d[via, y])
    hop = {}
    for i, y in d:
        ways = [h for t, h, l in arcs if t == i and l + d[h, y] == d[i, y] < far]
        hop[i, y] = 0 if i == y else min(ways, default=NONE)
    return {key: value if value < far else NONE for key, value in d.items()}, hop


def array(name, values):
    return f"hidden byte {name}[{len(values)}] = {{{', '.join(map(str, values))}}};\n"


def house_text(n, lmax, arcs):
    d, hop = shortest(n, arcs)
    places = [(i, y) for i in range(n + 1) for y in range(n + 1)]
    return (
        f"#define N {n}\n#define LMAX {lmax}\n#define ARCS {len(arcs)}\n#define SENT {(n - 1) * lmax + n + 2}\n"
        + "".join(array(name, [arc[k] for arc in arcs] + [0]) for k, name in enumerate(("tail", "head", "length")))
        + array("right_distance", [d.get(place, NONE) for place in places])
        + array("right_hop", [hop.get(place, NONE) for place in places])
        + "inline pick_house() { skip }\n"
    )


def search(work, text, mutant=None):
    """Runs spin over the house; what pan printed, or None where it did not come to its end."""
    (work / "house.pml").write_text(text)
    shutil.copy(HERE / "method.pml", work)
    subprocess.run(["spin", "-a", *([f"-D{mutant}"] if mutant else []), "method.pml"], cwd=work, check=True, stdout=subprocess.DEVNULL)
    # NOREDUCE: every order is tried, none is left out as alike; no hash compaction: every state is kept whole
    subprocess.run(["gcc", "-O2", "-w", "-DSAFETY", "-DNOREDUCE", "-DCOLLAPSE", "-DMEMLIM=4000", "-o", "pan", "pan.c"], cwd=work, check=True)
    try:
        return subprocess.run(["./pan", "-m100000", "-w23"], cwd=work, capture_output=True, text=True, timeout=TIME_LIMIT).stdout
    except subprocess.TimeoutExpired:
        return None


def number(text, pattern):
    found = re.search(pattern, text or "")
    return int(found.group(1)) if found else None


def is_clean(out):
    """No error, the search came to its end, and the check after the last step was reached."""
    return (
        number(out, r"errors: (\d+)") == 0
        and "max search depth too small" not in out
        and "Search not completed" not in out
        and re.search(r"unreached in proctype Last\n\t\(0 of", out) is not None
    )


def check_house(work, name, text):
    began = time.monotonic()
    out = search(work, text)
    ok = out is not None and is_clean(out)
    states = number(out, r"(\d+) states, stored") or 0
    print(f"{'ok    ' if ok else 'FAILED'} {name}: {states:,} states, {time.monotonic() - began:.0f} s", flush=True)
    if not ok:
        print(out or f"not done within {TIME_LIMIT} s")
    return ok, states


def check_mutant(work, mutant, words, house):
    out = search(work, house_text(*house[1:]), mutant) or ""
    found = re.search(r"assertion violated (.*) \(at depth", out)
    print(f"{'ok    ' if found else 'FAILED'} a node that {words} is {'caught: ' + found.group(1) if found else 'not caught'}", flush=True)
    return found is not None


def main():
    if len(sys.argv) != 2:
        sys.exit(__doc__)
    work = pathlib.Path(sys.argv[1])
    work.mkdir(parents=True, exist_ok=True)
    results = [check_house(work, name, house_text(n, lmax, arcs)) for name, n, lmax, arcs in HOUSES]
    any_house = (HERE / "any_house.pml").read_text()
    for n, lmax in SIZES:
        houses = (lmax + 1) ** (n * (n - 1))
        results.append(check_house(work, f"every house of {n} with LMAX {lmax} ({houses})", f"#define N {n}\n#define LMAX {lmax}\n{any_house}"))
    caught = [check_mutant(work, *mutant) for mutant in MUTANTS]
    passed = sum(ok for ok, _ in results) + sum(caught)
    print(f"spin: {sum(states for _, states in results):,} states in {len(results)} searches, {sum(caught)} of {len(caught)} wrong methods caught")
    print(f"{passed} passed, {len(results) + len(caught) - passed} failed")
    sys.exit(passed != len(results) + len(caught))


if __name__ == "__main__":
    main()
