#!/usr/bin/env python3
"""Brings the names that this repository's own definitions, laws and fields bear to snake case.

A name of words (`firstCaused`, `least-is`) becomes `first_caused`, `least_is`. A dash stays where it joins the names of two
definitions (`length-suffix_table`). Types, records and modules keep their capitals; names from the Rattle source, of the
library and of goals stay. Run once, at the top of the repository: python3 tools/respell.py [--dry]
"""
import collections
import glob
import re
import subprocess
import sys

CRATES = "basics lines binding tables scans drawlog writer pairs listing capi figures overlap bind".split()
# A name that would fall together with another one, or that a word of the language or the library has.
OTHERWISE = {
    "closestAt": "closest_start",
    "pair-in": "pair_in_lem",
    "id-of": "id_of_lem",
    "is_digit": "is_digit_lem",
    "id-at": "id_at_lem",
    "start-at": "start_at_lem",
}
TOKEN = re.compile(r"[^\s(){}\[\];,.«»|⌜⌝\"`]+")
STD = set("length take drop set map replicate get_or min max eqb ltb leb not cond suc zero reverse slice append".split())


def read(path):
    with open(path, encoding="utf-8") as f:
        return f.read()


def files(kind):
    out = []
    for c in CRATES:
        out += glob.glob(f"crates/{c}/{kind}", recursive=True)
    return sorted(set(out))


def imports(text):
    """The names that a file brings in from outside this repository."""
    out = set()
    for m in re.finditer(r"(?m)^\s*(?:ghost )?use ([\w.+·-]+?)\.\{([^}]*)\}", text):
        own = any(m.group(1).startswith(f"Rattle.{c}.") for c in CRATES)
        if not own:
            out |= {n.split(" as ")[-1].strip() for n in m.group(2).split(",")}
    return out


def code(line):
    """The part of a line of antt before its comment, and the comment."""
    m = re.search(r"(^|\s)--(\s|$)", line)
    return (line[: m.start()], line[m.start():]) if m else (line, "")


DEF = re.compile(r"^(\s*)((?:pub |abbrev |unfoldable |data |record )*)([^\s(){}\[\];,.:«»]+) :( |$)")


def gather():
    defs, laws = set(), set()
    for f in files("specs/**/*.antt"):
        for line in read(f).split("\n"):
            part = code(line)[0]
            m = DEF.match(part)
            if not m or part.startswith("use "):
                if re.match(r"^\s*\| ", part):
                    continue
                for n in re.findall(r"\blet ([^\s(){}\[\];,.:]+) [:=]", part):
                    laws.add(n)
                continue
            name = m.group(3)
            if re.search(r"abbrev|unfoldable|data|record", m.group(2)):
                defs.add(name)
            else:
                laws.add(name)
    return defs, laws


def snake(word):
    return re.sub(r"(?<=[a-z0-9])([A-Z])", lambda m: "_" + m.group(1).lower(), word)


def main():
    dry = "--dry" in sys.argv
    defs, laws = gather()
    foreign = set()
    for f in files("specs/**/*.antt") + files("proofs/**/*.antt") + files("src/**/*.rt"):
        foreign |= imports(read(f))
    names = {}
    known = {snake(d) for d in defs if d[:1].islower()} | STD
    for n in defs | laws:
        if n in foreign or n[:1].isupper():
            continue
        parts = [snake(p) for p in n.split("-")]
        new = parts[0]
        for a, b in zip(parts, parts[1:]):
            new += ("-" if a in known and b in known else "_") + b
        new = OTHERWISE.get(n, new)
        if new != n:
            names[n] = new
    taken = collections.defaultdict(set)
    for n in defs | laws | foreign:
        taken[names.get(n, n)].add(n)
    clash = {k: v for k, v in taken.items() if len(v) > 1}
    if dry:
        for o in sorted(names):
            print(o, "->", names[o])
        print("CLASH", clash)
        source = set()
        for f in files("src/**/*.rt"):
            source |= set(re.findall(r"\b(?:fn|pub|const|let|struct|enum|mod)\s+(?:mut )?(\w+)", read(f)))
            source |= set(re.findall(r"\b(\w+):", read(f)))
        print("SOURCE", sorted(v for k, v in names.items() if v in source))
        return
    if clash:
        sys.exit(f"names that fall together: {clash}")
    turn = lambda text: TOKEN.sub(lambda m: names.get(m.group(0), m.group(0)), text)

    def comment(text):
        text = re.sub(r"`[^`]*`", lambda m: turn(m.group(0)), text)
        return re.sub(r"[A-Za-z][\w']*", lambda m: names.get(m.group(0), m.group(0)) if re.search(r"[a-z][A-Z]", m.group(0)) else m.group(0), text)

    changed = 0
    for f in files("specs/**/*.antt") + files("proofs/**/*.antt"):
        old = read(f)
        new = "\n".join(turn(a) + comment(b) for a, b in map(code, old.split("\n")))
        if new != old:
            changed += 1
            with open(f, "w", encoding="utf-8") as out:
                out.write(new)
    for f in files("src/**/*.rt"):
        old, out, clause = read(f), [], False
        for line in old.split("\n"):
            s = line.strip()
            if re.match(r"(ghost|requires|ensures)\b", s):
                clause = True
            if clause:
                line = turn(line)
            elif s.startswith("//"):
                line = comment(line)
            if clause and (s.endswith("}") or s.endswith(";") or s.endswith("},")):
                clause = False
            out.append(line)
        new = "\n".join(out)
        if new != old:
            changed += 1
            with open(f, "w", encoding="utf-8") as o:
                o.write(new)
    for c in CRATES:
        subprocess.run(["rt", "fmt"], cwd=f"crates/{c}", check=False)
    print(f"{len(names)} names, {changed} files")


main()
