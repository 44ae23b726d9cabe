#!/usr/bin/env python3
"""Prints the groups of functions and types of src/ that have the same shape: equal but for names, numbers and byte letters.

Usage: twins.py [CHECKOUT]. A line `twins N: crate::name ..` for each group; N is how many tokens the shape has.
"""
import pathlib
import re
import sys

KEPT = set("fn pub let mut if else match while for loop return struct enum impl in as break self Self usize u8 u32 u64 bool true false".split())
LEAST = 12


def items(text):
    """The name and the text without comments, clauses and ghost lines of each function, struct and enum."""
    text = re.sub(r"//.*", "", text)
    text = re.sub(r"^ghost use .*$", "", text, flags=re.M)
    text = re.sub(r"^\s*(requires|ensures)\b.*$", "", text, flags=re.M)
    for found in re.finditer(r"\b(fn|struct|enum)\s+(\w+)", text):
        start = text.find("{", found.end())
        depth = 0
        for at in range(start, len(text)):
            depth += {"{": 1, "}": -1}.get(text[at], 0)
            if depth == 0:
                yield found.group(2), text[found.start() : at + 1]
                break


def shape(text):
    """The tokens, names, numbers and letters replaced."""
    tokens = re.findall(r"b?'[^']*'|b?\"[^\"]*\"|\w+|[^\w\s]", text)
    return tuple(t if t in KEPT else "0" if t[0].isdigit() else "n" if t[0].isalpha() or t[0] == "_" else t for t in tokens)


def main():
    root = pathlib.Path(sys.argv[1] if len(sys.argv) > 1 else pathlib.Path(__file__).parent.parent)
    groups = {}
    for path in sorted(root.glob("crates/*/src/*.rt")):
        for name, text in items(path.read_text()):
            key = shape(text)
            if len(key) >= LEAST:
                groups.setdefault(key, []).append(f"{path.parts[-3]}::{name}")
    for key, names in sorted(groups.items(), key=lambda g: g[1]):
        if len(names) > 1:
            print(f"twins {len(key)}:", " ".join(names))


main()
