#!/usr/bin/env python3
"""Lists the places in crates/*/src that the design pass is about.

    python3 tools/places.py [-v] [FOLDER]

FOLDER is a checkout (the one that this file is in, if none is given). Each line is a point, a search and how many places
it finds; with -v the places too. A search finds what looks so; docs/DESIGN-PASS.md says what became of each place.
"""
import collections
import pathlib
import re
import sys

LINE_SEARCHES = [
    # point, name, expression over one line
    (1, "theorem that answers a number", r"^pub fn \w+\(\) -> u8$"),
    (1, "number for a case: an arm from or to a number", r"^\s+(?:\d+|b'.'|\w+::\w+) => (?:\d+|\w+::\w+(?:\(\w+::\w+\))?),$"),
    (1, "number that opens words", r"\bpush\(code, (?:used|opened|second), \d+\)"),
    (3, "while loop", r"^\s*while "),
    (3, "for over numbers", r"^\s*for \w+ in [\w()+\-. ]*\.\.[^.]"),
    (3, "counter stepped by hand", r"^\s*\w+ [+-]= 1;$"),
    (4, "blank value written out", r"^\s*const (?:NOTHING|BLANK|NOBODY): "),
    (4, "arm that says true or false", r"=> (?:true|false),?$"),
    (4, "byte class by hand", r"b(?:yte)? >= b'.' && b(?:yte)? <= b'.'|< b'0' \|\| \*?\w+ > b'9'"),
    (4, "printing field by field", r"\{time\} \{process\} \{number\}|refused \{number\} at \{place\}"),
    (5, "clause that a place is inside", r"(?:requires|ensures).*\{ .*(?:at ≤ length|place result|place_in result|_place result|inside bytes|result\.(?:at|place) ≤ length)"),
    (5, "clause that names are few", r"requires few \{ length names\.now ≤ 64 \}"),
    (6, "last place by a length", r"\brow\[len - 1\]|&names\[\.\.(?:first\.)?count\]|&table\[\.\.kinds\]"),
    (7, "trait of one function for callers to fill in", r"^pub trait \w+ \{"),
    (7, "call chosen by a number", r"^\s+(?:\d+|_) => \w+\((?:bytes)?\),$"),
]

BLOCK_SEARCHES = [
    (1, "result taken apart and made again",
     r"match [^{]*\{\s*(?:Ok\(\w+\) => (?:Ok\(|\w)|Some\(\w+\) => (?:Some|Ok)\(|None => None,|Err\(\w+\) => (?:return )?Err)"),
    (1, "result of its own", r"enum (?:Opened|Verdict) \{"),
    (1, "refusal written out", r"(?:Err\()?Refusal \{\n"),
    (3, "search by hand", r"for \w+ in [\w&.\[\]]+ \{\s*if [^\n]*\{\s*return "),
    (4, "conversion by hand", r"\n(?:pub )?fn \w+\((?:rule|word|packed|op|sign|refusal): [\w]+(?:, \w+: \w+)?\) -> [\w]+\n(?:    ensures[^\n]*\n)+\{\n    match "),
    (4, "order or equality by hand", r"fn is_before\("),
]

FUNCTION = re.compile(r"^(?:    )?(?:pub )?(?:extern \"C\" )?fn (\w+)(?:<[^>]*>)?\(([^)]*)\)([^{]*?)\n?((?:    (?:requires|ensures)[^\n]*\n(?:        [^\n]*\n)*)*)\{\n(.*?)^(?:    )?\}", re.M | re.S)

GROUPS = [
    ("bytes and a place in them", {"bytes", "at"}),
    ("out, place and limit", {"out", "at", "limit"}),
    ("words and how many are in use", {"code", "used"}),
    ("row and how many wait", {"row", "len"}),
    ("event, variables, tally and places", {"event", "vars", "tally"}),
    ("memory of a run", {"processes", "vars", "row", "sends", "lines"}),
    ("slices of a model", {"code", "kinds", "names"}),
    ("processes, variables and places for what they do", {"processes", "vars", "sends", "lines"}),
]

TYPES = re.compile(r"\b(?:u8|u32|u64|usize|Message|Line|Process|Refusal|Rule::\w+)\b")
NAMES = re.compile(r"\b(?!(?:fn|let|mut|if|else|match|for|in|while|return|Some|None|Ok|Err|true|false|as|len)\b)[a-z_]\w*\b")


def shape(body):
    """The text of a function with its types, numbers and own names left out."""
    text = TYPES.sub("T", body)
    text = re.sub(r"\b\d+\b", "N", text)
    seen = {}

    def number(match):
        return seen.setdefault(match.group(), f"x{len(seen)}")

    return re.sub(r"\s+", " ", NAMES.sub(number, text))


def sources(top):
    for path in sorted((top / "crates").glob("*/src/*.rt")):
        yield path.relative_to(top / "crates"), path.read_text()


def main():
    args = [a for a in sys.argv[1:] if a != "-v"]
    loud = "-v" in sys.argv
    top = pathlib.Path(args[0]) if args else pathlib.Path(__file__).resolve().parent.parent
    found = collections.defaultdict(list)
    order = [(p, n) for p, n, _ in LINE_SEARCHES + BLOCK_SEARCHES]
    by_name, by_shape = collections.defaultdict(list), collections.defaultdict(list)
    for path, text in sources(top):
        for point, name, expression in LINE_SEARCHES:
            for k, line in enumerate(text.splitlines(), 1):
                if re.search(expression, line):
                    found[point, name].append(f"{path}:{k}: {line.strip()}")
        for point, name, expression in BLOCK_SEARCHES:
            for match in re.finditer(expression, text):
                k = text.count("\n", 0, match.start()) + 1
                found[point, name].append(f"{path}:{k}: {' '.join(match.group().split())[:70]}")
        for match in FUNCTION.finditer(text):
            name, parameters, body = match.group(1), match.group(2), match.group(5)
            k = text.count("\n", 0, match.start()) + 1
            place = f"{path}:{k}: {name}"
            if name not in ("main", "run", "fmt"):
                by_name[name].append(place)
            if len(body.split()) >= 8:
                by_shape[shape(parameters + body)].append(place)
            own = set(re.findall(r"(\w+):", parameters))
            for group, members in GROUPS:
                if members <= own:
                    found[5, "parameters together: " + group].append(place)
    for places in by_name.values():
        if len(places) > 1:
            found[2, "same name, more than once"] += places
    for places in by_shape.values():
        if len(places) > 1:
            found[2, "same shape, more than once"] += places
    order += [(2, "same name, more than once"), (2, "same shape, more than once")]
    order += [(5, "parameters together: " + group) for group, _ in GROUPS]
    for point, name in sorted(order, key=lambda o: o[0]):
        print(f"{point}  {len(found[point, name]):3}  {name}")
        if loud:
            for place in found[point, name]:
                print(f"          {place}")


main()
