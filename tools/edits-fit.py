#!/usr/bin/env python3
"""Says of each edit below crates/*/must-fail and more-edits whether it fits: whether each of its `old:` texts stands exactly once in the file that it names.

usage: python3 tools/edits-fit.py [CRATE..]    at the top of the repository; with no names, every crate

A further pair of `old:` and `new:` applies to what the earlier ones made. The exit status is 1 where an edit does not fit.
"""
import glob
import os
import subprocess
import sys

KEYS = ("file: ", "old: ", "new: ")


def parts(path):
    """The pairs of an edit, as (file, old, new), and what is wrong with its form."""
    pairs, file, old, wrong = [], None, None, []
    with open(path, encoding="utf-8") as f:
        for number, line in enumerate(f.read().split("\n"), 1):
            if not line.strip() or line.startswith("#"):
                continue
            key = next((k for k in KEYS if line.startswith(k)), None)
            if key is None:
                if line in ("old:", "new:", "file:"):
                    key, line = line + " ", line + " "
                else:
                    wrong.append(f"line {number} is neither a pair nor a comment")
                    continue
            text = line[len(key):]
            if key == "file: ":
                file = text.strip()
            elif key == "old: ":
                if old is not None:
                    wrong.append(f"line {number}: no new text before it")
                old = text
            else:
                if old is None:
                    wrong.append(f"line {number}: no old text before it")
                else:
                    pairs.append((file, old, text))
                old = None
    if old is not None:
        wrong.append("the last old text has no new one")
    if not pairs:
        wrong.append("no pair")
    return pairs, wrong


def misfits(path, crate):
    """What keeps an edit from its crate's text."""
    pairs, wrong = parts(path)
    texts = {}
    for file, old, new in pairs:
        if file is None:
            wrong.append("no file is named")
            continue
        if old == "":
            wrong.append("an old text is empty")
            continue
        if old == new:
            wrong.append(f"nothing changes: {old}")
        if file not in texts:
            try:
                with open(os.path.join("crates", crate, file), encoding="utf-8") as f:
                    texts[file] = f.read()
            except OSError:
                wrong.append(f"crates/{crate}/{file} is not there")
                continue
        count = texts[file].count(old)
        if count != 1:
            wrong.append(f"stands {count} times in {file}: {old}")
            if count == 0:
                continue
        texts[file] = texts[file].replace(old, new, 1)
    return wrong


def main():
    top = subprocess.run(["git", "rev-parse", "--show-toplevel"], capture_output=True, text=True, check=True).stdout.strip()
    os.chdir(top)
    found = [(p, p.split("/")[1]) for p in sorted(glob.glob("crates/*/must-fail/*.edit") + glob.glob("more-edits/*/*.edit"))]
    if len(sys.argv) > 1:
        found = [(p, c) for p, c in found if c in sys.argv[1:]]
    bad = 0
    for path, crate in found:
        wrong = misfits(path, crate)
        if wrong:
            bad += 1
            for w in wrong:
                print(f"{path}: {w}")
    print(f"{len(found) - bad} edits fit, {bad} do not")
    return 1 if bad else 0


if __name__ == "__main__":
    sys.exit(main())
