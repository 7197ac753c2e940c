#!/usr/bin/env python3
"""Prints crates.txt in the order in which its crates are best begun, and says what the proofs' time is made of. rt ci heeds no order of the
file: of the crates whose libraries are proved it begins the one with the longest chain of crates above it, side by side with others, and the edits
of a crate once that is proved. So whole runs from nothing take no less than the longest chain. It goes to standard error, lowest first, with the
seconds of each crate: what shortens it is a split of a crate that stands there, or a crate that no longer needs to stand on another there.
Seconds come from a log that tools/progress.sh wrote, where all crates were proved in that run.
usage, from the root: tools/order.py build/ci.txt > new && mv new crates.txt"""
import re
import sys

UNKNOWN = 10  # seconds of a crate that the log does not name


def read_crates():
    """The comments in front, and for each crate its line and the crates of this file that it stands on."""
    comments, lines = [], {}
    for line in open("crates.txt"):
        if line.startswith("#"):
            comments.append(line)
        elif ":" in line:
            lines[line.split(":")[0].split()[0]] = line.rstrip("\n") + "\n"
    stands = {name: [word for word in line.split(":")[1].split() if word in lines] for name, line in lines.items()}
    return comments, lines, stands


def read_seconds(text, crates):
    """The seconds of each crate's check, one at least."""
    checks = {name: max(int(seconds), 1) for name, seconds in re.findall(r"^seconds: (\w+) (\d+)$", text, re.M)}
    return {name: checks.get(name, UNKNOWN) for name in crates}


def chains_of(stands, seconds):
    """For each crate the seconds of the longest chain that begins with it and goes up, and the next crate of that chain."""
    above = {name: [other for other in stands if name in stands[other]] for name in stands}
    chains = {}

    def chain(name):
        if name not in chains:
            after = max(above[name], key=lambda other: chain(other)[0], default=None)
            chains[name] = seconds[name] + (chains[after][0] if after else 0), after
        return chains[name]

    for name in stands:
        chain(name)
    return chains


comments, lines, stands = read_crates()
seconds = read_seconds(open(sys.argv[1], errors="replace").read(), stands)
chains = chains_of(stands, seconds)
# a chain that begins lower is longer, so each crate comes after those that it stands on
order = sorted(lines, key=lambda name: -chains[name][0])
sys.stdout.writelines(comments + [lines[name] for name in order])
longest, name = chains[order[0]][0], order[0]
print(f"{sum(seconds.values())} seconds of {len(order)} crates; the longest chain has {longest}:", file=sys.stderr)
while name:
    print(f"  {seconds[name]:4d} s  {name}", file=sys.stderr)
    name = chains[name][1]
