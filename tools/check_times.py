#!/usr/bin/env python3
"""Says which functions of a crate a check spent its time on.

    rt check --jobs 1                      in the crate's folder, or a part of it by --only
    tools/check_times.py NAME [MINUTES]    at the top: what was checked in the last MINUTES (60)

A check writes a file for each part of each function that it has checked, into the crate's `out/incremental`.
What lies between the times of one file and the next is what the next took. With several jobs these overlap, so
the check is to have one; what was kept from an earlier check has no time here. The parts are the borrow
checker's (Lts and Tie), the proof's (Proof), and all others.
"""
import collections
import os
import re
import sys
import time

PARTS = "Lts Tie Proof Code Statement Kinds Met Shape Fits Invariants Answers".split()


def written_since(folder, start):
    """Returns the names of the files that were written since, with their times, in order."""
    found = []
    for at, _, names in os.walk(folder):
        for name in names:
            when = os.stat(os.path.join(at, name)).st_mtime
            if name.endswith(".oantt") and when >= start:
                found.append((when, name))
    return sorted(found)


def function_and_part(crate, name):
    """Returns the function that a file is of, and which part of it; of other files their module."""
    module = re.sub(r"(\.decls)?\.oantt$", "", name)
    inside = re.match(rf"Rattle-{crate}-(?:proofs|specs)\.?(.*)", module)
    if not inside:
        return "(the crate as a whole)", "other"
    part = re.search(rf"\.({'|'.join(PARTS)})[^.]*$", inside[1])
    if not part:
        return inside[1], "other"
    return inside[1][: part.start()], part[1] if part[1] in PARTS[:3] else "other"


def main(crate, minutes="60"):
    files = written_since(f"crates/{crate}/out/incremental", time.time() - 60 * float(minutes))
    functions, parts = collections.Counter(), collections.Counter()
    for (before, _), (after, name) in zip(files, files[1:]):
        function, part = function_and_part(crate, name)
        functions[function] += after - before
        parts[part] += after - before
    told = ", ".join(f"{part} {seconds:.0f}" for part, seconds in parts.most_common())
    print(f"{sum(parts.values()):.0f} seconds: {told}")
    for function, seconds in functions.most_common():
        if seconds >= 1:
            print(f"{seconds:6.1f}  {function}")


if __name__ == "__main__":
    if len(sys.argv) not in (2, 3):
        sys.exit(__doc__)
    main(*sys.argv[1:])
