# SPDX-License-Identifier: BSD-2-Clause OR GPL-2.0-or-later
"""Reads the blobs of kernel packages with the command line: read.py COMMAND RESULTS FOLDER...

Each folder holds `package` (one line: architecture, package, version) and `blobs/`. Every blob has to be read, or refused with a number;
what check.py finds in it has to agree. Prints a table, and writes a line for each blob to RESULTS. Exit status 1 where a blob fails.
"""

import collections
import json
import pathlib
import subprocess
import sys

import check

KINDS = {"arm64": "arm64", "armhf": "arm32", "riscv64": "riscv"}
LONG = 65536

Result = collections.namedtuple("Result", "package name bytes map number words")


def run(command, kind, blob):
    """What the command line says of a blob: the exit status 0 or 1, and the object."""
    done = subprocess.run([command, "--json", "--board", kind, blob], stdout=subprocess.PIPE, stderr=subprocess.PIPE)
    check.demand(done.returncode in (0, 1), f"exit status {done.returncode}: {done.stderr.decode('utf-8', 'replace').strip()}")
    return done.returncode, json.loads(done.stdout)


def read(command, kind, blob):
    """The number told of a blob, 0 where it is read, and words: its processors, or the refusal."""
    status, told = run(command, kind, blob)
    if status == 0:
        check.demand(told["board"] == kind, "read as another kind of board")
        check.check_accepted(blob, told)
        return 0, f"{told['count']} processors"
    check.demand(told["number"] > 0, "refused without a number")
    check.check_refusal(blob, told["number"])
    return told["number"], f"({told['check']}): {told['node']}: {told['message']}"


def read_package(command, folder):
    """The results of a package's blobs, and what went wrong."""
    architecture, package, version = (folder / "package").read_text().split()
    results, wrong = [], []
    for blob in sorted((folder / "blobs").rglob("*.dtb")):
        name = str(blob.relative_to(folder / "blobs")).split(package + "/", 1)[-1]
        try:
            number, words = read(command, KINDS[architecture], str(blob))
        except (check.Disagreement, ValueError, KeyError) as problem:
            wrong.append(f"{package} {name}: {type(problem).__name__}: {problem}")
            continue
        results.append(Result(f"{package} {version}", name, blob.stat().st_size, check.has_map(str(blob)), number, words))
    if not results:
        wrong.append(f"{package}: no blob was read")
    return results, wrong


def line(result):
    verdict = f"refused {result.number} {result.words}" if result.number else f"read {result.words}"
    return f"{result.package} {result.name} {result.bytes} {verdict}"


def columns(title, results):
    """One line of the table."""
    numbers = [result.number for result in results]
    counts = [
        len(results),
        numbers.count(0),
        numbers.count(15),
        numbers.count(34),
        sum(number not in (0, 15, 34) for number in numbers),
        sum(result.map for result in results),
        sum(result.bytes > LONG for result in results),
        sum(result.bytes > LONG and result.number == 0 for result in results),
    ]
    return [title] + [f"{count:,}" for count in counts]


def print_table(packages):
    head = ["", "blobs", "map read", "15: no map", "34: no /cpus", "other numbers", "fdtget: a map", f"over {LONG:,} B", "of them read"]
    body = [columns(results[0].package, results) for results in packages if results]
    if len(body) > 1:
        body.append(columns("all", [result for results in packages for result in results]))
    widths = [max(len(row[k]) for row in [head] + body) for k in range(len(head))]
    for row in [head] + body:
        print(row[0].ljust(widths[0]), *(word.rjust(width) for word, width in zip(row[1:], widths[1:])), sep="  ")


def print_refusals(results):
    """How often each number was told, and each board with a map that is refused."""
    for number, count in sorted(collections.Counter(result.number for result in results if result.number).items()):
        check_name = next(result.words for result in results if result.number == number).split(":")[0]
        print(f"{number} {check_name}: {count:,}")
    for result in results:
        if result.number not in (0, 15, 34):
            print(f"  {result.package.split()[0]} {result.name}: {result.number} {result.words}")


def main():
    command, target = sys.argv[1:3]
    packages, wrong = [], []
    for folder in map(pathlib.Path, sys.argv[3:]):
        results, problems = read_package(command, folder)
        packages.append(results)
        wrong += problems
    everything = [result for results in packages for result in results]
    pathlib.Path(target).write_text("".join(line(result) + "\n" for result in everything))
    print_table(packages)
    print_refusals(everything)
    for problem in wrong:
        print(f"WRONG: {problem}", file=sys.stderr)
    return 1 if wrong else 0


if __name__ == "__main__":
    sys.exit(main())
