#!/usr/bin/env python3
"""Says which must-fail edits do not fit their files: an `old:` text has to stand there exactly once, after the pairs before it.

At the top of the repository: python3 tools/edits.py [CRATE..]. The exit status is 0 only where all fit.
"""
import glob
import os
import sys


def misfits(edit, crate):
    """What an edit's pairs do not find, one line each."""
    file, old, texts, found = "", None, {}, []
    with open(edit, encoding="utf-8") as lines:
        for line in lines.read().split("\n"):
            if line.startswith("file: "):
                file = line[len("file: "):].strip()
            elif line.startswith("old: "):
                old = line[len("old: "):]
            elif line.startswith("new:"):
                path = f"crates/{crate}/{file}"
                if not os.path.isfile(path):
                    found.append(f"there is no file {path}")
                    continue
                if path not in texts:
                    with open(path, encoding="utf-8") as text:
                        texts[path] = text.read()
                times = texts[path].count(old)
                if times != 1:
                    found.append(f"{times} times in {path}: {old}")
                texts[path] = texts[path].replace(old, line[len("new:"):].removeprefix(" "), 1)
    return found


def main():
    wanted, number, bad = sys.argv[1:], 0, 0
    for edit in sorted(glob.glob("crates/*/must-fail/*.edit")):
        crate = edit.split("/")[1]
        if wanted and crate not in wanted:
            continue
        number += 1
        found = misfits(edit, crate)
        bad += bool(found)
        for line in found:
            print(f"{edit}: {line}")
    print(f"{number} edits, {bad} of them do not fit")
    return bad > 0


sys.exit(main())
