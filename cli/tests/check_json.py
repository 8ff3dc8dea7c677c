#!/usr/bin/env python3
# SPDX-License-Identifier: BSD-2-Clause OR GPL-2.0-or-later
"""Checks JSON documents against docs/schema.json: check_json.py SCHEMA DIRECTORY

Every NAME.json of the directory is a document. Where NAME.cpu stands beside it, that is the path that its first row has as cpu. The schema
decides; a keyword that is not known here is an error, so that nothing of it is passed over.
"""

import json
import pathlib
import re
import sys

TYPES = {"object": dict, "array": list, "string": str, "integer": int, "null": type(None)}


def is_type(value, name):
    return isinstance(value, TYPES[name]) and not isinstance(value, bool)


def of_type(value, names):
    names = [names] if isinstance(names, str) else names
    return any(is_type(value, name) for name in names)


class Checker:
    def __init__(self, root):
        self.root = root

    def valid(self, value, schema):
        """Whether every keyword of a schema holds of a value."""
        return all(self.holds(value, keyword, schema) for keyword in schema)

    def one_of(self, value, schemas):
        return sum(self.valid(value, schema) for schema in schemas) == 1

    def reference(self, value, name):
        found = self.root
        for step in name.removeprefix("#/").split("/"):
            found = found[step]
        return self.valid(value, found)

    def properties(self, value, schemas):
        return all(self.valid(value[name], schemas[name]) for name in value if name in schemas)

    def holds(self, value, keyword, schema):
        """Whether one keyword holds; those of another type than the value's do."""
        argument = schema[keyword]
        if keyword in ("$schema", "$comment", "$defs", "title", "description"):
            return True
        if keyword == "$ref":
            return self.reference(value, argument)
        if keyword == "oneOf":
            return self.one_of(value, argument)
        if keyword == "type":
            return of_type(value, argument)
        if keyword in ("const", "enum"):
            allowed = [argument] if keyword == "const" else argument
            return any(value == one and type(value) is type(one) for one in allowed)
        return self.holds_of(value, keyword, schema)

    def holds_of(self, value, keyword, schema):
        argument = schema[keyword]
        checks = {
            "minimum": (int, lambda: value >= argument),
            "maximum": (int, lambda: value <= argument),
            "pattern": (str, lambda: re.search(argument, value) is not None),
            "minItems": (list, lambda: len(value) >= argument),
            "maxItems": (list, lambda: len(value) <= argument),
            "items": (list, lambda: all(self.valid(item, argument) for item in value)),
            "properties": (dict, lambda: self.properties(value, argument)),
            "required": (dict, lambda: all(name in value for name in argument)),
            "additionalProperties": (dict, lambda: argument or value.keys() <= schema["properties"].keys()),
        }
        kind, check = checks[keyword]
        return not isinstance(value, kind) or check()


def distinct(pairs):
    members = dict(pairs)
    if len(members) != len(pairs):
        raise ValueError("a member stands there twice")
    return members


def no_constant(name):
    raise ValueError(f"{name} is no JSON")


def read(file):
    text = file.read_bytes().decode("utf-8")
    return json.loads(text, object_pairs_hook=distinct, parse_constant=no_constant)


def check_object(one):
    """What the schema cannot say of a board or a refusal."""
    if next(iter(one)) != "schema":
        raise ValueError("schema is not the first member")
    if any(("planned" in row) != ("plan" in one) for row in one.get("rows", [])):
        raise ValueError("planned stands without a plan, or a plan without it")


def check(checker, file):
    """Raises an error where the document is wrong."""
    document = read(file)
    if not checker.valid(document, checker.root):
        raise ValueError("it does not keep the schema")
    for one in document if isinstance(document, list) else [document]:
        check_object(one)
    expected = file.with_suffix(".cpu")
    if expected.exists() and document["rows"][0]["cpu"] != expected.read_bytes().decode("utf-8"):
        raise ValueError(f"cpu is {document['rows'][0]['cpu']!r}")


def main():
    schema, directory = map(pathlib.Path, sys.argv[1:])
    checker = Checker(read(schema))
    files = sorted(directory.glob("*.json"))
    wrong = 0
    for file in files:
        try:
            check(checker, file)
        except ValueError as error:
            print(f"{file.name}: {error}")
            wrong += 1
    print(f"{len(files)} documents, {wrong} wrong")
    sys.exit(1 if wrong or not files else 0)


main()
