#!/usr/bin/env python3
"""Counts the places of docs/DESIGN-PASS.md in the sources below crates/*/src.

usage: python3 tools/places.py [-v] [ROOT]    at the top of the repository, or of another checkout of it; -v lists them

enums     own enums, and of those the ones with two variants of which one or both have a payload, the shape of Option or Result
loops     `while` and `loop`, and of those the ones whose condition names a variable that the body moves by one; `for`
codes     parameters and fields named op, operator, kind, number or refusal whose type is a plain number
twins     groups of functions whose bodies are the same but for names and numbers
by hand   functions that give back an order and find it by hand, and those that give each variant of an enum a number
pairs     parameters that travel together: functions that take both of `schema, words`, `rule, words`, `heads, texts`, `text, out`
"""
import collections
import glob
import os
import re
import sys

VERBOSE = "-v" in sys.argv
ROOT = next((a for a in sys.argv[1:] if a != "-v"), ".")


def sources():
    for path in sorted(glob.glob(os.path.join(ROOT, "crates/*/src/**/*.rt"), recursive=True)):
        with open(path, encoding="utf-8") as f:
            text = re.sub(r"//[^\n]*", "", f.read())
        yield os.path.relpath(path, os.path.join(ROOT, "crates")), text


def closing(text, at):
    depth = 0
    for i in range(at, len(text)):
        depth += {"{": 1, "}": -1}.get(text[i], 0)
        if depth == 0:
            return i
    return len(text)


def functions(text):
    for m in re.finditer(r"^(?:#\[[^\n]*\]\n)*((?:pub )?(?:extern \"C\" )?fn (\w+)[^;]*?)\n?\{\n", text, flags=re.M):
        yield m.group(2), m.group(1), text[m.end():closing(text, m.end() - 2)]


def enums(found):
    for path, text in sources():
        for m in re.finditer(r"^(?:pub )?enum (\w+)[^{]*\{", text, flags=re.M):
            body = text[m.end():closing(text, m.end() - 1)]
            variants = [v for v in re.findall(r"^    (\w+)(\(|,| \{)", body, flags=re.M)]
            found["enums"].append(f"{path}: {m.group(1)}")
            if len(variants) == 2 and any(p != "," for _, p in variants):
                found["enums of two variants, one with a payload"].append(f"{path}: {m.group(1)}")


def loops(found):
    for path, text in sources():
        for name, _, body in functions(text):
            for m in re.finditer(r"\bwhile ([^{]*) \{|\bloop \{", body):
                found["while and loop"].append(f"{path}: {name}")
                inner = body[m.end():closing(body, m.end() - 1)]
                moved = re.findall(r"\b(\w+) [+-]= 1;", inner)
                if any(re.search(rf"\b{v}\b", m.group(1) or "") for v in moved):
                    found["loops that count by hand"].append(f"{path}: {name}: while {m.group(1)}")
            found["for"] += [f"{path}: {name}"] * len(re.findall(r"\bfor [^{]* in ", body))


def codes(found):
    for path, text in sources():
        for m in re.finditer(r"\b(op|operator|kind|number|refusal|reason): (u8|u32|usize)\b", text):
            found["kinds and refusals as plain numbers"].append(f"{path}: {m.group(0)}")


def by_hand(found):
    for path, text in sources():
        for name, head, body in functions(text):
            if re.search(r"-> (?:\w*Order\w*|Level)\b", head) and re.search(r"\bif (\w+) < (\w+) \{", body):
                found["orders written by hand"].append(f"{path}: {name}")
            if re.match(r"[\s\S]*-> u32\s*(\n|$)", head) and len(re.findall(r"\b[A-Z]\w+::\w+(?:\([^)]*\))? => \d+", body)) >= 2:
                found["numbers of variants written by hand"].append(f"{path}: {name}")


def twins(found):
    shapes = collections.defaultdict(list)
    for path, text in sources():
        for name, head, body in functions(text):
            if len(body.split("\n")) < 4:
                continue
            words = re.findall(r"\w+|[^\w\s]", body)
            order = {}
            # names and numbers by the order in which they first occur: bodies that differ only there look alike
            shape = " ".join(str(order.setdefault(w, len(order))) if re.match(r"[A-Za-z_]\w*(?<!let)(?<!if)$|\d", w) and w not in ("let", "if", "else", "return", "match", "while", "for", "in", "mut", "as") else w for w in words)
            shapes[shape].append(f"{path}: {name}")
    for group in shapes.values():
        if len(group) > 1:
            found["functions whose bodies differ only in names and numbers"] += [", ".join(group)]


def pairs(found):
    for path, text in sources():
        for name, head, _ in functions(text):
            flat = re.sub(r"\s+", " ", head)
            for a, b in (("schema", "words"), ("rule", "words"), ("heads", "texts"), ("text", "out")):
                if re.search(rf"\b{a}: &(?:mut )?\[", flat) and re.search(rf"\b{b}: &(?:mut )?\[", flat):
                    found[f"functions that take {a} and {b}"].append(f"{path}: {name}")


def main():
    found = collections.defaultdict(list)
    for count in (enums, loops, codes, by_hand, twins, pairs):
        count(found)
    for key, places in found.items():
        print(f"{len(places):5} {key}")
        if VERBOSE:
            print("\n".join(f"        {p}" for p in places))


main()
