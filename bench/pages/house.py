#!/usr/bin/env python3
"""Prints how heavy each crate is, and how much of the house stands above it.

    bench/pages/house.py              the crates on which a fifth of the house or more stands
    bench/pages/house.py --all        all crates
    bench/pages/house.py --chain      the longest chain of crates below the program, by what they weigh

Lines are those that are not empty. Code is what runs, without comments and contracts; clauses are the lines of contracts; specs
are definitions that contracts cite; proofs are what is written of proofs. "Above" is the share of all lines of the house, tests
left out, that stand in crates above this one: these are proved anew where its contracts or definitions change.
"""
import os
import re
import subprocess
import sys

TESTS = re.compile(r"(_rows|_faults)$")
CLAUSE = re.compile(r"^\s*(requires|ensures)\*?\b")


def crates():
    """The crates in the order of crates.txt, each with the crates of the house that it stands on."""
    lines = {}
    for line in open("crates.txt"):
        if match := re.match(r"(\w+)(?: [^:]*)?:(.*)", line):
            lines[match[1]] = match[2].split()
    return {name: [it for it in below if it in lines] for name, below in lines.items()}


def files(crate, part, ending):
    listed = subprocess.run(["git", "ls-files", f"crates/{crate}/{part}"], capture_output=True, text=True).stdout
    return [name for name in listed.splitlines() if name.endswith(ending) and os.path.exists(name)]


def code_and_clauses(path):
    """How many lines of a source file run, and how many are contracts."""
    code = clauses = depth = 0
    in_clause = False
    for line in open(path):
        text = line.strip()
        if not text or text.startswith("//") or text.startswith("ghost "):
            continue
        if CLAUSE.match(line):
            in_clause, depth = True, 0
        if in_clause:
            clauses += 1
            depth += text.count("{") - text.count("}")
            in_clause = depth > 0
        else:
            code += 1
    return code, clauses


def lines(paths):
    return sum(1 for path in paths for line in open(path) if line.strip() and not line.strip().startswith("--"))


def weigh(crate):
    sources = [code_and_clauses(path) for path in files(crate, "src", ".rt")]
    return (
        sum(code for code, _ in sources),
        sum(clauses for _, clauses in sources),
        lines(files(crate, "specs", ".antt")),
        lines(files(crate, "proofs", ".antt")),
    )


def above(house):
    """For each crate, those that stand on it, directly or not."""
    found = {name: set() for name in house}
    for name in house:
        todo = list(house[name])
        while todo:
            below = todo.pop()
            if name not in found[below]:
                found[below].add(name)
                todo += house[below]
    return found


def main():
    house = {name: below for name, below in crates().items() if not TESTS.search(name) and name != "test_objects"}
    house = {name: [it for it in below if it in house] for name, below in house.items()}
    weights = {name: weigh(name) for name in house}
    total = sum(sum(it) for it in weights.values())
    if "--chain" in sys.argv:
        longest = {}
        for name in house:
            best = max((longest[it] for it in house[name] if it in longest), default=(0, []))
            longest[name] = (best[0] + sum(weights[name]), best[1] + [name])
        weight, chain = longest["reraid"]
        print(f"{len(chain)} crates, {100 * weight // total}% of the house: " + ", ".join(chain))
        return
    stand = above(house)
    print("| crate | code | clauses | specs | proofs | above |")
    print("|---|---|---|---|---|---|")
    for name, (code, clauses, specs, proofs) in weights.items():
        share = 100 * sum(sum(weights[it]) for it in stand[name]) // total
        if share >= 20 or "--all" in sys.argv:
            print(f"| `{name}` | {code} | {clauses} | {specs} | {proofs} | {share}% |")
    print(f"| all | {' | '.join(str(sum(it[k] for it in weights.values())) for k in range(4))} | |")


main()
