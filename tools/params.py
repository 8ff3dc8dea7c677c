#!/usr/bin/env python3
# SPDX-License-Identifier: BSD-2-Clause OR GPL-2.0-or-later
"""params.py [ROOT]: which two parameters stand together in three functions or more of crates/*/src, and which `requires` in three or more."""
import collections
import glob
import itertools
import re
import sys

root = sys.argv[1] if len(sys.argv) > 1 else "."
together = collections.defaultdict(list)
asked = collections.defaultdict(list)
for path in sorted(glob.glob(root + "/crates/*/src/*.rt")):
    text = open(path, encoding="utf-8").read()
    where = path.split("crates/")[1]
    for name, words in re.findall(r"\bfn (\w+)(?:<[^>]*>)?\(([^)]*)\)", text):
        parameters = [" ".join(word.split()) for word in words.split(",") if word.strip()]
        for pair in itertools.combinations(parameters, 2):
            together[pair].append(where + ": " + name)
    for clause in re.findall(r"requires(?: \w+)? (\{.*\})", text):
        asked[clause].append(where)
for title, found in (("together", together), ("requires", asked)):
    rows = sorted((row for row in found.items() if len(row[1]) >= 3), key=lambda row: -len(row[1]))
    print(f"{title}: {len(rows)}")
    for key, places in rows:
        print(len(places), key, ", ".join(places))
