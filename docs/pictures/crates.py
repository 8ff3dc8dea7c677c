# SPDX-License-Identifier: BSD-2-Clause OR GPL-2.0-or-later
"""The crates, their layers and the numbers that they tell, from layers.txt, crates.txt and the header."""

import collections
import re

Layer = collections.namedtuple("Layer", "name crates")
Crate = collections.namedtuple("Crate", "name words numbers on")


def lines(text):
    """The lines that say something."""
    return [line.strip() for line in text.splitlines() if line.strip() and not line.startswith("#")]


def dependencies(text):
    """What each crate of crates.txt depends on, those of the kit left out. Behind a name may stand what kind of library it is."""
    pairs = [(head.split()[0], words) for head, _, words in (line.partition(":") for line in lines(text))]
    names = {name for name, _ in pairs}
    return {name: [one for one in words.split() if one in names] for name, words in pairs}


def direct(name, depends):
    """The crates that it depends on and that no other one of these depends on: each crate's line has all below it."""
    return [one for one in depends[name] if not any(one in depends[other] for other in depends[name])]


def plain_numbers(words):
    """The numbers that a crate tells, without those of names and demands."""
    words = re.sub(r"N\d+ to N\d+|demands \d+ to \d+", "", words)
    pairs = re.findall(r"(\d+)(?: to (\d+))?", words)
    return {number for first, last in pairs for number in range(int(first), int(last or first) + 1)}


def check_numbers(layers, header_text):
    """The crates tell the numbers of the header, and no others."""
    told = set().union(*(plain_numbers(crate.numbers) for layer in layers for crate in layer.crates))
    stated = {int(number) for number in re.findall(r"\bSUNDERWATH_\w+ = (\d+)", header_text)} - {0}
    if told != stated:
        raise ValueError(f"layers.txt: the numbers {sorted(told ^ stated)} stand only there, or only in the header")


def read(layers_text, crates_text):
    """The layers, the lowest first. Every crate stands in one of them, above all that it depends on."""
    depends, layers, seen = dependencies(crates_text), [], set()
    for line in lines(layers_text):
        if line.startswith("["):
            layers.append(Layer(line.strip("[]"), []))
            continue
        name, words, numbers = (part.strip() for part in line.split("|"))
        if name not in depends or name in seen:
            raise ValueError(f"layers.txt: {name} is no crate of crates.txt, or stands there twice")
        if not seen.issuperset(depends[name]):
            raise ValueError(f"layers.txt: {name} stands before a crate that it depends on")
        seen.add(name)
        layers[-1].crates.append(Crate(name, words, numbers, direct(name, depends)))
    if seen != set(depends):
        raise ValueError(f"layers.txt: not there: {', '.join(sorted(set(depends) - seen))}")
    return layers
