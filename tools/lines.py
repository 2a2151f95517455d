#!/usr/bin/env python3
"""Writes into docs/TRUST.md how many lines each file has that its tables list. At the top of the repository: python3 tools/lines.py"""
import re

PAGE = "docs/TRUST.md"


def counted(row):
    with open(f"crates/{row[1]}", encoding="utf-8") as file:
        return f"| `{row[1]}` | {file.read().count(chr(10))} |"


with open(PAGE, encoding="utf-8") as page:
    text = page.read()
with open(PAGE, "w", encoding="utf-8") as page:
    page.write(re.sub(r"(?m)^\| `(\S+\.antt)` \| \d+ \|", counted, text))
