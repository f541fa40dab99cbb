#!/usr/bin/env python3
"""Lists the places in src/ that the pass on design looks at, point by point, with a count of each kind.

    python3 tools/places.py [FOLDER]     FOLDER is a checkout; the default is this one

It goes by the text alone. What it lists is to be read: not each place is a fault, and a fault may have no pattern.
Tests (functions under #[test] and the crates of tests) are counted too.
"""
import collections
import pathlib
import re
import sys

root = pathlib.Path(sys.argv[1] if len(sys.argv) > 1 else pathlib.Path(__file__).parent.parent)
files = sorted(root.glob("crates/*/src/*.rt"))
TOKEN = re.compile(r'b?"(?:\\.|[^"])*"|b?\'(?:\\.|[^\'\\])\'|\'?\w+|[^\s\w]')
KEYWORDS = set("""fn pub impl for in let mut if else match return self Self struct enum const where while loop use as ref
move true false u8 u16 u32 u64 usize bool""".split())


def code(text):
    """The text without comments, ghost lines and contract clauses, line by line."""
    kept = []
    for line in text.split("\n"):
        bare = line.strip()
        clause = re.match(r"(requires|ensures\*?|ghost)\b", bare)
        kept.append("" if bare.startswith("//") or clause else line)
    return kept


def blocks(lines, head):
    """Each item whose first line matches `head`, up to its closing brace, with the number of its first line."""
    i = 0
    while i < len(lines):
        if re.match(head, lines[i]):
            depth, j, seen = 0, i, False
            while j < len(lines):
                depth += lines[j].count("{") - lines[j].count("}")
                seen = seen or "{" in lines[j]
                if (seen and depth <= 0) or (not seen and lines[j].rstrip().endswith(";")):
                    break
                j += 1
            yield i + 1, "\n".join(lines[i : j + 1])
        i += 1


def shape(text):
    """The tokens, with each name, number and literal told apart only by where it first stands."""
    names = {}
    out = []
    for token in TOKEN.findall(text):
        if re.match(r"\w|b?[\"']", token) and token not in KEYWORDS:
            token = names.setdefault(token, "_%d" % len(names))
        out.append(token)
    return " ".join(out)


places = collections.OrderedDict()


def place(point, kind, path, line, what):
    where = "%s:%d" % (path.relative_to(root), line)
    places.setdefault(point, collections.OrderedDict()).setdefault(kind, []).append((where, what.strip()[:110]))


shapes = {"fn": {}, "type": {}}
required = {}
together = {}
for path in files:
    text = path.read_text()
    lines = code(text)
    for n, line in enumerate(lines, 1):
        for point, kind, pattern in [
            (1, "enum", r"\s*(pub(\(crate\))? )?enum "),
            (1, "number of a refusal compared", r".*number\(\) [=!]= "),
            (1, "constant that marks a case", r".*const (UN\w+|NO\w*): \w+ = \d+"),
            (1, "zeros for none", r".*\w+: 0, \w+: 0 \}"),
            (3, "loop over a range of numbers", r"\s*for .* in .*\.\."),
            (3, "while or loop", r"\s*(while|loop)\b"),
            (3, "count by hand", r".*\+= 1;"),
            (4, "impl of a trait of the library", r"impl.* (PartialEq|Eq|Ord|PartialOrd|Clone|Copy|Default|From<.*>|TryFrom<.*>|.*Display) for "),
            (4, "cast", r".* as (u8|u16|u32|u64|usize)\b"),
            (4, "function that prints", r"\s*(pub )?fn .*: &HostRuntime"),
            (6, "array of a fixed size", r".*\[[\w ]+; [\w ]+\]"),
            (7, "match", r".*\bmatch .*\{$"),
            (7, "pointer to a function, or dyn", r".*(: fn\(|\bdyn\b)"),
        ]:
            if re.match(pattern, line):
                place(point, kind, path, n, line)
    for head, kind in [(r"\s*(pub(\(\w+\))? )?(final )?(const )?fn \w+", "fn"), (r"(pub(\(\w+\))? )?(struct|enum) \w+", "type")]:
        for n, block in blocks(lines, head):
            if len(TOKEN.findall(block)) >= 18:
                shapes[kind].setdefault(shape(block), []).append((path, n, block.split("\n")[0]))
    raw = text.split("\n")
    for n, line in enumerate(raw, 1):
        fact = re.match(r"\s*(requires|ensures)( \w+)? \{(.*)\}\s*$", line)
        if fact:
            bare = re.sub(r"\b\w+\.(now|old|new|entry)\b", "it.\\1", fact[3])
            if fact[1] == "requires" or re.search(r"\bold\b", fact[3]):
                required.setdefault((fact[1], re.sub(r"\s+", " ", bare)), []).append((path, n, line))
    for n, block in blocks(lines, r"\s*(pub(\(\w+\))? )?(final )?fn \w+"):
        inside = block[block.index("(") + 1 :] if "(" in block else ""
        params = re.findall(r"(\w+): (&?(?:mut )?\w+)", inside.split("{")[0])
        for i, a in enumerate(params):
            for b in params[i + 1 :]:
                together.setdefault((a[0], b[0]), []).append((path, n, block.split("\n")[0]))
for kind, what in [("fn", "function with the shape of another"), ("type", "type with the shape of another")]:
    for group in shapes[kind].values():
        if len(group) > 1:
            for path, n, head in group:
                place(2, what, path, n, head)
for (word, fact), group in required.items():
    if len(group) >= 3:
        for path, n, line in group:
            place(5, word + " in three functions or more", path, n, line)
for (a, b), group in together.items():
    if len(group) >= 3:
        place(5, "parameters together in three functions or more", group[0][0], group[0][1], "%s, %s in %d functions" % (a, b, len(group)))

for point in sorted(places):
    print("point %d" % point)
    for kind, found in places[point].items():
        print("  %s: %d" % (kind, len(found)))
        for where, what in found:
            print("    %s  %s" % (where, what))
