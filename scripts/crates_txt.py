"""What crates.txt says: the crates of this repository and which of them stand on which."""

import os
import sys

TOP = os.path.dirname(os.path.dirname(os.path.abspath(__file__)))


def listed():
    """Gives the crates of crates.txt, each with those of the repository that it names."""
    below = {}
    with open(f"{TOP}/crates.txt", encoding="utf-8") as lines:
        for line in lines:
            name, colon, names = line.partition("#")[0].partition(":")
            if colon:
                below[name.strip()] = names.split()
    return {name: [it for it in names if it in below] for name, names in below.items()}


def lowest_first(below):
    """Orders the crates so that each comes behind those that it names, and else as they are listed."""
    ordered = []
    while len(ordered) < len(below):
        ready = [it for it in below if it not in ordered and all(low in ordered for low in below[it])]
        if not ready:
            sys.exit("the crates of crates.txt name each other in a ring")
        ordered += ready
    return ordered


def above(name, below):
    """Gives the crates that stand on this one, near or far."""
    found = {name}
    for it in lowest_first(below):
        if found.intersection(below[it]):
            found.add(it)
    return found - {name}


def under(name, below):
    """Gives the crates that this one stands on, near or far, lowest first."""
    return [it for it in lowest_first(below) if name in above(it, below)]
