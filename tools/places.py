#!/usr/bin/env python3
"""Finds, in the sources of the crates, places that an older design leaves: one list and one count for each point.

    python3 tools/places.py [POINT ..] [--counts] [--at FOLDER]

1 answers told by hand, 2 twins, 3 loops by index, 4 comparing and converting by hand, 5 clauses and parameters that stand together,
6 tables beside their lengths, 7 switches on a step. It goes by the text alone: a hit is a place to look at, and docs/DESIGN-PASS.md says
what came of each.
"""
import re
import sys
from collections import defaultdict
from pathlib import Path

WORD = re.compile(r"[A-Za-z_][A-Za-z0-9_]*")


class Function:
    """A function of a source file: where it begins, its parameters, clauses and body."""

    def __init__(self, path, line, name, parameters, result, clauses, body):
        self.path, self.line, self.name = path, line, name
        self.parameters, self.result, self.clauses, self.body = parameters, result, clauses, body

    def at(self):
        return f"{self.path}:{self.line} {self.name}"


def closing(text, start, left, right):
    """The place behind the bracket that closes the one at `start`."""
    depth = 0
    for i in range(start, len(text)):
        if text[i] == left:
            depth += 1
        elif text[i] == right:
            depth -= 1
            if depth == 0:
                return i + 1
    return len(text)


def plain(text):
    """The text with what stands in comments, strings and character literals blanked, so that no bracket in them counts."""
    text = re.sub(r"//[^\n]*", lambda m: " " * len(m.group()), text)
    text = re.sub(r'b?"(\\.|[^"\\])*"', lambda m: "_" * len(m.group()), text)
    return re.sub(r"b?'(\\.[^']*|[^'\\])'", lambda m: "_" * len(m.group()), text)


def functions(path, shown):
    text = plain(path.read_text())
    for m in re.finditer(r"\bfn (\w+)\s*(<[^({]*>)?\s*\(", text):
        end = closing(text, m.end() - 1, "(", ")")
        parameters = [p.strip() for p in split_commas(text[m.end():end - 1])]
        i = end
        result = ""
        clauses = []
        while i < len(text):
            r = re.compile(r"\s*(->\s*(?P<result>[^{;]*?)(?=\s*(requires|ensures|\{|;))|(?P<kind>requires|ensures)\s*(?P<name>\w+)?\s*(?=\{))").match(text, i)
            if not r or r.end() == i:
                break
            if r.group("result") is not None:
                result, i = r.group("result").strip(), r.end()
            else:
                stop = closing(text, r.end(), "{", "}")
                clauses.append((r.group("kind"), " ".join(text[r.end() + 1:stop - 1].split())))
                i = stop
        b = re.compile(r"\s*\{").match(text, i)
        if not b:
            continue
        stop = closing(text, b.end() - 1, "{", "}")
        line = text.count("\n", 0, m.start()) + 1
        yield Function(shown, line, m.group(1), parameters, result, clauses, text[b.end():stop - 1])


def split_commas(text):
    parts, depth, last = [], 0, 0
    for i, c in enumerate(text):
        if c in "(<[{":
            depth += 1
        elif c in ")>]}":
            depth -= 1
        elif c == "," and depth == 0:
            parts.append(text[last:i])
            last = i + 1
    parts.append(text[last:])
    return [p for p in parts if p.strip()]


def lines(sources, patterns):
    """Each line that meets one of the patterns."""
    for shown, path in sources:
        code = plain(path.read_text()).split("\n")
        for n, line in enumerate(code, 1):
            if any(re.search(p, line) for p in patterns):
                yield f"{shown}:{n} {line.strip()[:100]}"


def enums(sources):
    for shown, path in sources:
        text = plain(path.read_text())
        for m in re.finditer(r"\benum (\w+)[^{]*\{", text):
            stop = closing(text, m.end() - 1, "{", "}")
            cases = re.sub(r"#\[\w+\]", "", text[m.end():stop - 1])
            variants = [" ".join(v.split()) for v in split_commas(cases)]
            yield shown, text.count("\n", 0, m.start()) + 1, m.group(1), variants


def point_1(sources, all_functions):
    """Answers told by hand: enums with a case for nothing or for a reason, sentinels, flags, an Option or a Result taken apart and put
    together again, a number that means nothing."""
    for shown, line, name, variants in enums(sources):
        if name.endswith("Fault"):
            continue
        if any(re.fullmatch(r"Nothing|Missing|Absent", v) for v in variants) or any(re.search(r"\bReason\b|\bFault\b", v) for v in variants):
            yield f"{shown}:{line} enum {name}"
    for f in all_functions:
        if any(re.search(r"\bbool$", p) for p in f.parameters):
            yield f.at() + ": a flag among the parameters"
        if re.search(r"=> \(0, 0\)", f.body):
            yield f.at() + ": zeros for nothing"
        if f.result in ("u8", "usize", "u16", "u32") and f.body.strip() == "0":
            yield f.at() + ": a number that means nothing"
    yield from lines(sources, [r"^\s*(pub(\(crate\))? )?(?!value\b|of_type\b)\w+: bool,$", r"None => None,", r"None => (return )?Err\(", r"Err\(_\) => (None|unreachable)",
                               r"None => unreachable", r"Some\(\w+\) => Err\(", r"None => Ok\(", r"None => (true|false),", r"\w+ as u8\b(?!\))\s*$"])
    for shown, path in sources:
        text = plain(path.read_text())
        for m in re.finditer(r"let (Some|Ok)\((?:[^=]|==)*= [^;]*? else \{\s*return (Err\([^;]*\)|None);\s*\}", text):
            yield f"{shown}:{text.count(chr(10), 0, m.start()) + 1} {' '.join(m.group().split())[:90]}"


def shape(body):
    """A body with all names of one sort alike, so that twins have one shape."""
    names = {}
    return re.sub(r"\s+", " ", WORD.sub(lambda m: m.group() if m.group() in ("self", "match", "if", "else", "return", "let", "mut", "for", "in", "while", "loop")
                                       else names.setdefault(m.group(), f"n{len(names)}"), body)).strip()


def point_2(sources, all_functions):
    """Twins: bodies of one shape in one crate, and enums with the same cases."""
    cases = defaultdict(list)
    for shown, line, name, variants in enums(sources):
        cases[frozenset(re.match(r"\w+", v).group() for v in variants)].append(f"{shown}:{line} enum {name}")
    for key in sorted(cases, key=lambda k: cases[k][0]):
        larger = [b for b in cases if key < b and len(key) > 1 and len(b) > 2]
        if len(cases[key]) > 1 or larger:
            for place in cases[key]:
                yield f"{place}   [{', '.join(sorted(key))[:60]}]"
    groups = defaultdict(list)
    for f in all_functions:
        s = shape(f.body)
        if len(f.body.split()) >= 4 and "tests" not in f.path:
            groups[(f.path.split("/")[1], s)].append(f)
    for key in sorted(groups, key=lambda k: (k[0], groups[k][0].at())):
        if len(groups[key]) > 1:
            for f in groups[key]:
                yield f"{f.at()}   [{groups[key][0].name}]"


def point_3(sources, all_functions):
    """Loops by index."""
    yield from lines(sources, [r"\bfor [a-z]\w* in [\w.()]+\.\.", r"\bwhile (?!let\b)", r"^\s*\w+ \+= 1[;,]?$|=> \w+ \+= 1,"])


def point_4(sources, all_functions):
    """Comparing, converting and copying by hand."""
    for f in all_functions:
        body = f.body.strip()
        if re.fullmatch(r"\w+ (==|<) \w+", body) or re.fullmatch(r"\w+ as u8", body):
            yield f.at() + ": " + body
        arms = re.findall(r"(\w+)::\w+(?:\((\w+)\)| \{[^}]*\b(\w+)\b[^}]*\}) => (\w+)", body)
        if len([a for a in arms if a[3] in (a[1], a[2])]) > 2:
            yield f.at() + ": one payload, an arm for each case"
        if re.search(r"(file|bytes|hex)\[\w+( \+ \d)?\]\)? \* (256|65536|16)", body) or re.search(r"- b?_+( \+ 10)?", body) and f.name == "digit":
            yield f.at() + ": a number out of its bytes"
        if re.search(r"if .* [<>] .*\{\s*return None;", body) and " as " in body:
            yield f.at() + ": a range tested before a cast"
        if re.search(r"=> (self\.put\()?_+\)?,", body) and len(re.findall(r"=> (?:self\.put\()?_+", body)) > 2:
            yield f.at() + ": text for each case"
        if len(re.findall(r"=> \(?\d+[,)]", body)) > 2 or len(re.findall(r"=> \(\d+, ", body)) > 2:
            yield f.at() + ": a number for each case"
    yield from lines(sources, [r"pub const BLANK: ", r"const \w*BLANK\w*: "])
    yield from lines(sources, [r"\bmatches!\((?!.* if |.*\{ \.\. \}\)+;|.*\(_\))"])


def point_5(sources, all_functions):
    """Clauses that stand word for word in three functions or more of a crate, and three parameters or more that stand together in three."""
    clauses = defaultdict(list)
    groups = defaultdict(set)
    for f in all_functions:
        if "tests" in f.path:
            continue
        crate = f.path.split("/")[1]
        for kind, text in set(f.clauses):
            if kind == "requires" or "result" not in text:
                clauses[(crate, kind, text)].append(f)
        names = [p for p in f.parameters if not p.startswith("&self") and p not in ("self", "&mut self")]
        if len(names) > 2:
            groups[crate].add(f)
    for (crate, kind, text), fs in sorted(clauses.items()):
        if len(fs) > 2:
            yield f"{crate}: {kind} {{ {text[:90]} }} in {len(fs)} functions"
    for crate, fs in sorted(groups.items()):
        seen = []
        fs = sorted(fs, key=lambda f: (f.path, f.line))
        for a in fs:
            for b in fs:
                common = frozenset(a.parameters) & frozenset(b.parameters)
                if a is not b and len(common) > 2:
                    holders = [f for f in fs if common <= frozenset(f.parameters)]
                    if len(holders) > 2 and common not in seen:
                        seen.append(common)
        largest = [c for c in seen if not any(c < d for d in seen)]
        for c in largest:
            holders = [f.name for f in fs if c <= frozenset(f.parameters)]
            yield f"{crate}: ({', '.join(sorted(c))[:110]}) in {len(holders)} functions"


def point_6(sources, all_functions):
    """Tables beside a length, reads past the end by hand, tables told by a switch."""
    yield from lines([s for s in sources if "tests" not in s[0]], [r"^(?!.*\b(const|type|fn)\b).*\[[\w:]+(<[^>]*>)?; \w+\]", r"\}; \d+\]", r": &'\w+ mut \[\w+\],$",
                       r"if .*>= [\w.]+\.len\(\)", r"if \w+ < \w+\.len\(\) \{ \w+\[\w+\] \} else"])
    for f in all_functions:
        if len(re.findall(r"\b[0-9]+ => ", f.body)) > 2:
            yield f.at() + ": a table as a switch"


def point_7(sources, all_functions):
    """Switches on which step to run: each arm calls a function of its own."""
    for f in all_functions:
        arms = re.findall(r"=> (?:Ok\(|Some\(|[\w:]+\()?(?:self\.)?(\w+)\(", f.body)
        arms = [a for a in arms if a[0].islower()]
        if len(set(arms)) > 2 and "tests" not in f.path:
            yield f.at() + f": {len(arms)} arms"
    yield from lines(sources, [r"\bof_type: bool\b"])


POINTS = {1: point_1, 2: point_2, 3: point_3, 4: point_4, 5: point_5, 6: point_6, 7: point_7}


def main(arguments):
    folder = Path(".")
    if "--at" in arguments:
        i = arguments.index("--at")
        folder = Path(arguments[i + 1])
        del arguments[i:i + 2]
    counts = "--counts" in arguments
    wanted = [int(a) for a in arguments if a.isdigit()] or sorted(POINTS)
    paths = sorted(folder.glob("crates/*/src/**/*.rt"))
    sources = [(str(p.relative_to(folder)), p) for p in paths]
    all_functions = [f for shown, p in sources for f in functions(p, shown)]
    for point in wanted:
        found = list(POINTS[point](sources, all_functions))
        print(f"point {point}: {len(found)} places")
        if not counts:
            for place in found:
                print("  " + place)


if __name__ == "__main__":
    main(sys.argv[1:])
