#!/usr/bin/env python3
"""Counts the places of older forms in crates/*/src, point by point, as docs/DESIGN-PASS.md names the points.

    python3 tools/forms.py [-v] [FOLDER]

Prints a line for each point and kind of place; with -v each place too. FOLDER is another checkout. A place is a line that
fits a pattern, a clause that stands in three or more contracts, or a list of parameters that three or more functions take.
What is found is for a reader to judge: docs/DESIGN-PASS.md says of each what it is.
"""
import pathlib
import re
import sys
from collections import defaultdict

NAMES = r"\w*cause\w*|\w*_refusal|refusal\w*|suffix|shift|both|nahui_suffix|nahui_shift|nahui_tables"
LINES = [
    ("1 field: a refusal's number, or a flag beside values", rf"^\s*(?:pub(?:\(crate\))? )?(?:refusal: u32|(?:there|good|equal): bool|said: usize|left: usize),$"),
    ("1 constant: a refusal's number", r"^\s*(?:pub )?const (?!LONGEST|SHORTEST|DRAWS|BYTE|BASE|FEWEST|MOST|DRAW|PROBE:)\w+: u32 = "),
    ("1 function: answers a refusal's number, or 0 for none", rf"^\s*(?:pub(?:\(crate\))? )?(?:extern \"C\" )?fn (?:{NAMES})\(.*-> u32"),
    ("1 test: a number or flag that tells the kind", r"(?:refusal|whole|unread|bad|left|\.said) [!=]= 0|_cause\(.*\) != 0|!(?:id|read)\.good|!met\.equal|\.there\b|^\s*if !stored"),
    ("3 loop: while", r"^\s*while "),
    ("4 function: a conversion or comparison that std has", r"^\s*(?:pub(?:\(crate\))? )?fn (?:wide|wide16|smaller|larger|less|byte|index|low|number|for_c|answer_of|tally_of|ended)\("),
    ("4 call of such a function of basics", r"basics::(?:wide|wide16|smaller|larger|less)\b|(?<![\w:.])(?:wide|smaller|larger)\("),
    ("6 function: a buffer with a place beside it", r"^\s*(?:pub(?:\(crate\))? )?fn \w+\((?:out|room|log): &mut \[u8\], (?:at|place|from): usize"),
    ("6 call: the place passed on by hand", r"(?:let (?:at|p\d|place|second|third|start|end|first|last) = |place = )\S+\((?:out|room|log|&mut page)\b"),
]


def signatures(text):
    """Each function's name, parameters and clauses."""
    for m in re.finditer(r"\bfn (\w+)(?:<[^>(]*>)?\(", text):
        depth, i = 1, m.end()
        while depth and i < len(text):
            depth += {"(": 1, ")": -1}.get(text[i], 0)
            i += 1
        parameters = [" ".join(p.split()) for p in re.split(r",(?![^<\[(]*[>\])])", text[m.end():i - 1]) if p.strip()]
        head = text[i:]
        end = re.search(r"^\s*\{\s*$|\{$", head, re.M)
        head = head[:end.start()] if end else ""
        clauses = re.findall(r"^\s*(?:requires|ensures)(?: \w+)? \{ (.*?) \}$", head, re.M | re.S)
        yield m.group(1), parameters, clauses


def main():
    verbose = "-v" in sys.argv
    rest = [a for a in sys.argv[1:] if a != "-v"]
    top = pathlib.Path(rest[0] if rest else pathlib.Path(__file__).resolve().parents[1])
    found = {name: [] for name, _ in LINES}
    clauses, together = defaultdict(list), defaultdict(list)
    for path in sorted(top.glob("crates/*/src/**/*.rt")):
        text = path.read_text()
        where = path.relative_to(top / "crates")
        for n, line in enumerate(text.splitlines(), 1):
            for name, pattern in LINES:
                if re.search(pattern, line.split("//")[0].rstrip() if name[0] != "3" else line):
                    found[name].append(f"{where}:{n}: {line.strip()}")
        for function, parameters, said in signatures(text):
            for part in {p.strip() for c in said for p in re.split(r" × ", c)}:
                if "result" not in part and ".new" not in part:
                    clauses[(where.parts[0], part.strip("()"))].append(f"{where}: {function}")
            names = [p for p in parameters if "self" not in p]
            if len(names) >= 3:
                for i in range(len(names) - 2):
                    together[(where.parts[0], ", ".join(names[i:i + 3]))].append(f"{where}: {function}")
    facts = {f"{c}: {t}": p for (c, t), p in clauses.items() if len(p) >= 3}
    groups = {f"{c}: {t}": p for (c, t), p in together.items() if len(p) >= 3}
    for name, places in found.items():
        print(f"{len(places):4} {name}")
        if verbose:
            print(*(f"         {p}" for p in places), sep="\n")
    for name, table in (("5 a fact in three or more contracts", facts), ("5 three parameters that three or more functions take", groups)):
        print(f"{len(table):4} {name}")
        if verbose:
            print(*(f"         {t}  [{len(p)}]" for t, p in sorted(table.items())), sep="\n")
    proofs = [p.read_text() for p in top.glob("crates/*/proofs/**/*.antt")]
    for name, pattern in (("8 answer to a goal", r"^pub \S+ : goal"), ("8 invariant or measure", r"^abbrev pub \S+ : goal"), ("8 line of proofs/", r"\n")):
        print(f"{sum(len(re.findall(pattern, t, re.M)) for t in proofs):4} {name}")


main()
