#!/usr/bin/env python3
"""Counts places in crates/*/src that are written as the older language had them.

usage: tools/places.py [-v] [ROOT]

Prints a line for each kind of place: the point of docs/DESIGN-PASS.md that it belongs to, what it is, how many there
are. With -v each place too. A pattern finds candidates: what of them stays, and why, the page says.
"""
import re
import sys
from collections import defaultdict
from pathlib import Path

# Each kind: its point, what it is, and patterns of its code, each over one or more lines.
KINDS = [
    ("1", "an enum of the shape of an option or a result", [
        r"^pub enum (?:Answer|Reply|Holding|Next(?:<'a>)?) \{",
    ]),
    ("1", "a result that is handed on by hand", [
        r"Err\((\w+)\) => return Err\(\1\)",
        r"if let Err\((\w+)\) = [^\n]*\{\n\s+return Err\(\1\);",
        r"Err\((\w+)\) => Err\(\1\)",
        r"let Ok\(.*\) = [^;]* else \{\n\s+return Err\(",
        r"\.is_err\(\) \{\n(?:\s+\w+\.clear\(\);\n)?\s+return Err\(",
        r"Err\(_\) => Err\(",
        r"Err\((?:\w+::)+\w+\) => Err\(",
        r"Err\(\w+\) => return (?:Ok\()?\w+::\w+\(",
        r"Err\(\w+\) => \{\n\s+return Err\(",
        r"Ok\(\w*\) => Ok\(\w+\),\n\s+Err",
    ]),
    ("1", "an option that is taken apart by hand", [
        r"None => (?:None|false|true|0|\"\"),",
        r"Some\((\w+)\) => \1,",
        r"Some\((\w+)\) => Some\(",
        r"let Some\(.*\) = [^;]* else \{\n\s+return (?:None|false);",
        r"Some\(\w+\) = [^\n]* \{\n\s+return Some\(",
        r"(?:=> true|=> Some\(\w+\)),\n\s+_ => (?:false|None),",
        r"if \w+(?:\(\))? \{\n?\s*(?:return )?Some\([^;\n]*\);?\n?\s*\}(?: else \{|\n\s+)\n?\s*None\b",
    ]),
    ("1", "a value that stands for none", [
        r"const NO_\w+: u64 = u64::MAX;", r"Run \{ who: 0, times: 0 \}",
    ]),
    ("1", "a flag with a value beside it", [r"\w+\(Clock, bool\)", r"stopped: bool,"]),
    ("1", "a number that says nothing, of a function that carries a theorem", [
        r"-> u8\n(?:    ensures[^\n]*\n)+\{\n    0\n\}",
    ]),
    ("3", "a loop over an index", [
        r"for [a-z]\w* in \(?[\w.:()]*\.\.",
        r"while \w+ < ",
        r"while let Some\(\(",
        r"while !\w+\.is_empty\(\)",
        r"while \w+ > 0",
    ]),
    ("4", "equality or a test of a kind by hand", [
        r"fn (?:same|equals|alike|differ|same_number|premise_number|is_two|breaks_\w+)\(",
        r"\w+\.(\w+) == \w+\.\1 && [^\n]*\w+\.(\w+) == \w+\.\2",
    ]),
    ("4", "a conversion by hand", [
        r"fn (?:numbered|fault_numbered|named|of_request|of_grant|of_nonce|read_as|why|stopped|digit_of|bytes_of|reader_of)\(",
        r"pub fn at\(",
        r"fn number\(self\) -> u8[^}]*\{\n\s+match self",
        r"impl From<io::Error> for Ended",
        r"impl From<std::alloc::AllocError> for Ended",
    ]),
    ("4", "printing by hand", [
        r"fn \w+\([^)]*\) -> &'static (?:str|\[u8\])",
        r"fn (?:tell_halt|tell_unusable|show_found)\(",
        r"match found \{\n\s+(?:journal::)?Found::New => \"",
        r"Err\(OpenError::WrongLength\) => Err\(anyhow",
    ]),
    ("6", "a buffer with a length beside it, lists side by side, an index that stands for a thing", [
        r"bytes: \[u8; \w+\],\n\s+(?:pub\(crate\) )?len: usize",
        r"clients: Vec<u32>,",
        r"(?:links|heads): Vec<usize>",
        r"\.remove\(0\)",
        r"pub at: usize,\n\s+pub len: usize",
        r"row: usize,",
        r"pub third: ",
        r"static \w+: \[\(",
        r"\w+: \[u64; FAULTS\]",
    ]),
    ("7", "a switch on which step to run, a table of functions", [
        r"match (?:self\.)?(?:workload|way|mode\.way) \{",
        r"\bdyn \b", r"\bfn\(",
    ]),
]

FN = re.compile(r"^( {0,4})(?:pub(?:\(crate\))? )?fn (\w+)(?:<[^(]*>)?\(((?:[^()]|\([^()]*\))*)\)(.*?)^\1\}$", re.M | re.S)
CLAUSE = re.compile(r"^ +(?:requires|ensures)\*?(?: \w+)? \{ (.*) \}$", re.M)
# Names that every program has.
COMMON = {"main", "run", "play", "show", "hear", "new", "of"}


def stripped(text):
    """The text without comments and ghost lines, line for line."""
    return "\n".join("" if line.lstrip().startswith(("//", "ghost use")) else line for line in text.split("\n"))


def main():
    told = "-v" in sys.argv
    args = [a for a in sys.argv[1:] if a != "-v"]
    root = Path(args[0] if args else ".")
    found = defaultdict(dict)
    bodies, names = defaultdict(list), defaultdict(list)
    params, facts = defaultdict(set), defaultdict(set)
    for path in sorted(root.glob("crates/*/src/*.rt")):
        text = stripped(path.read_text())
        at = path.relative_to(root)

        def where(m):
            return f"{at}:{text.count(chr(10), 0, m.start()) + 1}"

        for point, kind, patterns in KINDS:
            for pattern in patterns:
                for m in re.finditer(pattern, text, re.M):
                    found[point, kind].setdefault(where(m), m.group(0).split("\n")[0].strip())
        for m in FN.finditer(text):
            indent, name, given, rest = m.groups()
            body = re.sub(r"_?(?:u8|u16|u32|u64)\b|(?<=[a-z])[248]\b|\b\d+\b", "N", rest)
            body = re.sub(r"\s+", " ", body)
            if len(body) > 60:
                bodies[body].append((name, where(m)))
            if not indent and name not in COMMON:
                names[name].append((path.parts[-3], where(m)))
            typed = sorted(p.strip() for p in re.split(r",(?![^<]*>)", given) if ":" in p)
            typed = [p for p in typed if not p.startswith(("rt:", "heap:"))]
            for a in range(len(typed)):
                for b in typed[a + 1:]:
                    params[typed[a], b].add(where(m))
        for m in CLAUSE.finditer(text):
            facts[at.parts[1], m.group(1)].add(where(m))
    twins = found["2", "a function that differs from another in a type or a size, or not at all"]
    for places in bodies.values():
        for name, place in places[1:]:
            twins[place] = f"{name} ~ {places[0][0]} {places[0][1]}"
    shared = found["2", "a function whose name another crate's has too"]
    for name, places in names.items():
        for crate, place in places[1:]:
            if crate != places[0][0]:
                shared[place] = f"{name} ~ {places[0][1]}"
    together = found["5", "two parameters that stand together in six functions or more"]
    for pair, places in params.items():
        if len(places) >= 6:
            together[", ".join(pair)] = str(len(places))
    repeated = found["5", "a fact in the contracts of three functions of a crate or more"]
    for (crate, fact), places in facts.items():
        if len(places) >= 3:
            repeated[f"{crate}: {fact}"] = str(len(places))
    for (point, kind), places in sorted(found.items()):
        print(f"{point}. {kind}: {len(places)}")
        if told:
            for place, what in sorted(places.items()):
                print(f"    {place}: {what}")


main()
