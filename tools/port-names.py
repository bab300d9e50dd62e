#!/usr/bin/env python3
"""Brings the names of definitions and lemmas to today's spelling: words in snake case, `'` for a prime; and gives the crate json another name, since the library has one of that name.

usage: python3 tools/port-names.py            at the top of the repository, once, after the toolchain's own script

Renamed are names of specs/ and proofs/ that begin with a small letter: `isUtf8-2` is `is_utf8-2`. A dash that joins two words of a law's name stays.
Types, modules, functions of src/, exported names, strings, inputs and outputs keep theirs, and so do names that the toolchain makes of code.
"""
import os
import re
import subprocess
import sys

HEAD = re.compile(r"^(?P<indent>\s*)(?:(?:abbrev|unfoldable|pub|data|record|private)\s+)*(?P<name>[a-z][\w'′-]*)(?=\s)(?P<rest>.*)$")


def snake(name):
    name = name.replace("′", "'")
    name = re.sub(r"([a-z0-9])([A-Z]+)", lambda m: m.group(1) + "_" + m.group(2).lower(), name)
    return name


def files(root, endings):
    names = subprocess.run(["git", "ls-files", "-z"], cwd=root, capture_output=True, text=True, check=True).stdout.split("\0")
    return [n for n in names if n.endswith(endings)]


def is_shared(path):
    """Definitions and laws that others cite: specs/, and files right in proofs/."""
    return bool(re.match(r"crates/\w+/(specs/.*|proofs/\w+)\.antt$", path))


def declared(text):
    """The names that a file of definitions gives: what stands before a colon at the head of a line, fields and constructors too."""
    found = set()
    for line in text.split("\n"):
        if line.lstrip().startswith("--"):
            continue
        m = HEAD.match(line)
        if m and re.match(r"(?:\s+[a-z][\w'′-]*)*\s*:(?:\s|$)|\s*(?:[({].*)?\s*:(?:\s|$)", m.group("rest")):
            for n in [m.group("name")] + re.findall(r"[a-z][\w'′-]*", m.group("rest").split(":")[0]) * (not re.search(r"[({]", m.group("rest").split(":")[0])):
                found.add(n)
    return found


def of_libraries(texts):
    """Names that are brought in from a library of the toolchain."""
    found = set()
    for text in texts:
        for m in re.finditer(r"^\s*(?:ghost )?use ([\w.'·-]+)\.\{([^}]*)\}", text, re.M):
            module = m.group(1)
            if re.match(r"Rattle\.(?!std\b|core\b)\w+\.(specs|proofs)", module):
                continue
            for n in m.group(2).split(","):
                found.add(n.strip().split(" as ")[0].strip())
    return found


def main():
    root = subprocess.run(["git", "rev-parse", "--show-toplevel"], capture_output=True, text=True, check=True).stdout.strip()
    os.chdir(root)
    texts = {}
    for p in files(root, (".antt", ".rt", ".edit", "crates.txt")):
        with open(p, encoding="utf-8") as f:
            texts[p] = f.read()
    own = set()
    for p, t in texts.items():
        if is_shared(p):
            own |= declared(t)
    library = of_libraries(t for p, t in texts.items() if p.endswith((".antt", ".rt")))
    renamed = {n: snake(n) for n in own if snake(n) != n and n not in library}
    clashes = sorted(n for n in own if snake(n) != n and n in library)
    kept = {n for n in own if snake(n) == n}
    # a law that the toolchain's script brought to the name that a definition has now: it takes its dash again
    laws = {s: s.replace("_", "-") for s in set(renamed.values()) & kept}
    print("laws with a dash again:", ", ".join(sorted(laws.values())))
    print("also in a library, kept:", ", ".join(clashes))

    def respell(name):
        if name in renamed:
            return renamed[name]
        if name[:1].islower() and re.search(r"[a-z0-9][A-Z]", name) and name not in library and not name.startswith(("in-", "returns-", "loop-", "then-", "else-")):
            return "-".join(snake(part) for part in name.split("-"))
        return name.replace("′", "'")

    def turn(text, proof):
        """Each name of a text: the parts of a path one by one, those behind `tie.`, `goal.` or `Lts.` never."""
        out = []
        at = 0
        for m in re.finditer(r'"(?:[^"\\\n]|\\.)*"|[\w\'′][\w\'′₀₁₂₃-]*(?:\.[\w\'′+][\w\'′₀₁₂₃+-]*)*', text):
            out.append(text[at:m.start()])
            at = m.end()
            word = m.group(0)
            if word.startswith('"'):
                out.append(word)
                continue
            parts = word.split(".")
            if parts[0] in ("tie", "goal", "Lts", "Rattle") or re.fullmatch(r"\d.*", parts[0]):
                out.append(word)
                continue
            first = laws.get(parts[0]) if proof else None
            out.append(".".join([first or respell(parts[0])] + [respell(x) if x and x[0].islower() else x.replace("′", "'") for x in parts[1:]]))
        out.append(text[at:])
        return "".join(out)

    def turn_use(text, proof):
        """Lines that bring names in: the module stays, but for a namespace's file; the names in braces are turned."""
        lines = []
        for line in text.split("\n"):
            if re.match(r"\s*(ghost )?use Rattle\.", line):
                head, brace, rest = line.partition("{")
                lines.append(head + brace + turn(rest, proof))
            else:
                lines.append(turn(line, proof))
        return "\n".join(lines)

    crate = re.compile(r"\bRattle\.json\.|(?<![\w.:])json::")
    for p, t in texts.items():
        if p == "crates.txt":
            new = re.sub(r"(?<![\w])json(?![\w])", "json_text", t)
        else:
            new = turn_use(t, p.endswith(".antt")) if not p.endswith(".rt") else turn_rt(t, turn_use)
            new = crate.sub(lambda m: m.group(0).replace("json", "json_text"), new)
        if new != t:
            with open(p, "w", encoding="utf-8") as f:
                f.write(new)
    for old, new in (("crates/json", "crates/json_text"), ("more-edits/json", "more-edits/json_text")):
        if os.path.isdir(old):
            os.rename(old, new)
    with open("/tmp/port-names.tsv", "w", encoding="utf-8") as f:
        for n, s in sorted(renamed.items()):
            f.write(f"{n}\t{s}\n")
    print(f"{len(renamed)} names, listed in /tmp/port-names.tsv")


def turn_rt(text, turn):
    """Of code only clauses and imports of definitions: lines `ghost use`, and what stands in the braces of a clause."""
    out = []
    inside = 0
    for line in text.split("\n"):
        clause = re.match(r"\s*(requires|ensures|ghost|invariant|also_owns|also_shares)\b", line)
        if inside or clause:
            new = turn(line, False)
            inside = max(0, inside + line.count("{") - line.count("}")) if (inside or clause) else 0
            out.append(new)
        else:
            out.append(line)
    return "\n".join(out)


if __name__ == "__main__":
    sys.exit(main())
