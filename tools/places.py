"""Lists the places in src/ that an older style of Rattle leaves behind, by eight points.

    python3 tools/places.py        the counts
    python3 tools/places.py -v     each place too

It goes by patterns, so a place is a candidate: whether it may stay is for a reader to say.
"""
import collections
import pathlib
import re
import sys

FILES = sorted(pathlib.Path("crates").glob("*/src/*.rt"))
TEXT = {f: f.read_text() for f in FILES}
WORDS = set("fn let mut if else match for in while loop return Some None Ok Err self Self pub impl struct enum use "
            "true false as break continue ref where const move".split())


def lines(pattern, keep=lambda f, l: True):
    for f in FILES:
        for n, l in enumerate(TEXT[f].split("\n"), 1):
            if not l.lstrip().startswith("//") and "ghost" not in l and re.search(pattern, l) and keep(f, l):
                yield f"{f}:{n}: {l.strip()[:110]}"


def enums():
    """Enums of two or three cases, some empty and some with a value."""
    for f in FILES:
        for m in re.finditer(r"^(?:pub )?enum (\w+)[^{]*\{(.*?)\n\}", TEXT[f], re.S | re.M):
            cases = re.findall(r"^    (\w+)(\([^\n]*\)|\{|)[, ]*$", re.sub(r"//[^\n]*", "", m[2]), re.M)
            full = [c for c in cases if c[1]]
            if 1 < len(cases) < 4 and full and len(full) < len(cases):
                yield f"{f}: enum {m[1]}"


def functions():
    """Every function with its file, name, head and body."""
    for f in FILES:
        for m in re.finditer(r"\bfn (\w+)", TEXT[f]):
            head = body = None
            at = m.end()
            depth = 0
            while at < len(TEXT[f]):
                c = TEXT[f][at]
                if c in "([":
                    depth += 1
                elif c in ")]":
                    depth -= 1
                elif c == ";" and depth == 0:
                    break
                elif c == "{":
                    end, d = at + 1, 1
                    while d:
                        d += {"{": 1, "}": -1}.get(TEXT[f][end], 0)
                        end += 1
                    if re.search(r"(requires|ensures)[ \w*]*$", TEXT[f][m.end():at]):
                        at = end
                        continue
                    head, body = TEXT[f][m.start():at], TEXT[f][at:end]
                    break
                at += 1
            if body is not None:
                yield f, m[1], head, body


def shape(body):
    out = []
    for t in re.findall(r'b?"[^"]*"|b?\'[^\']*\'|\w+|[^\s\w]', re.sub(r"//[^\n]*", "", body)):
        out.append(t if t in WORDS or not re.match(r"[\w\"']", t) else "x")
    return " ".join(out)


def twins():
    """Functions whose bodies differ in names, numbers and texts only."""
    groups = collections.defaultdict(list)
    for f, name, _, body in functions():
        s = shape(body)
        if len(s.split()) >= 14:
            groups[s].append(f"{f}: {name}")
    for g in groups.values():
        if len(g) > 1:
            yield "; ".join(g)


def clauses():
    """Facts, apart from which moment of which value they are of, that three functions or more state."""
    where = collections.defaultdict(set)
    for f, name, head, _ in functions():
        for m in re.finditer(r"(?:requires|ensures)[ \w]*\{(.*?)\}\s*(?=\n|$)", head, re.S):
            text = re.sub(r"\b(self|\w+)\.(old|now|new)\b", "v", m[1]).strip()
            for fact in re.split(r"×", text):
                fact = re.sub(r"[()]", "", fact).strip()
                if len(fact.split()) > 1:
                    where[fact].add(f"{f.parts[1]}::{name}")
    for fact, names in where.items():
        if len(names) > 2:
            yield f"{len(names)} functions: {fact[:90]}"


def together():
    """Three parameters or more that three functions or more take."""
    seen = collections.defaultdict(set)
    for f, name, head, _ in functions():
        if "tests" in f.parts[1]:
            continue
        m = re.search(r"\((.*?)\)\s*(->|requires|ensures|$)", head, re.S)
        params = frozenset(re.findall(r"(\w+): ", m[1] if m else "")) - {"rt", "heap"}
        if len(params) > 2:
            seen[f.parts[1]].add((name, params))
    for crate, fns in seen.items():
        done = set()
        for _, p in sorted(fns, key=lambda x: -len(x[1])):
            for _, q in fns:
                both = p & q
                if len(both) > 2 and both not in done:
                    users = [n for n, r in fns if both <= r]
                    if len(users) > 2:
                        done.add(both)
                        yield f"{crate}: {', '.join(sorted(both))} in {', '.join(sorted(users))}"


POINTS = [
    ("1 own Option and Result, flags beside values, numbers for kinds", [
        ("enums of an empty and a full case", enums),
        ("fields that are flags", lambda: lines(r"^\s+(pub(\(\w+\))? )?\w+: bool,$")),
        ("numbers for kinds", lambda: lines(r"\b(kind|class|layer|mark|letter)\w*: &?u(8|16)|\b(Kind|Letter|Fault|Name)\((u8|[A-Z]\w+, u8)\)|fn \w*(number|layer|class)\w*\(.*-> (u8|Option<u8>)|\[256; 256\]")),
        ("a flag for what befell a value behind &mut", lambda: (f"{f}: {n}" for f, n, h, _ in functions() if "&mut" in h.split("->")[0] and re.search(r"-> bool\b", h) and "trials/src/random" not in str(f))),
    ]),
    ("2 twins", [("groups of functions of one shape", twins)]),
    ("3 loops with an index counted by hand", [
        ("while and loop", lambda: lines(r"\bwhile\b|\bloop\b")),
        ("for over numbers", lambda: lines(r"\bfor \w+ in [^{]*\.\.")),
        ("counters", lambda: lines(r"\+= \d+;|(saturating|wrapping)_add\(1\)")),
    ]),
    ("4 comparing, copying, converting and printing by hand", [
        ("functions that give a text", lambda: lines(r"fn .*-> &'static (str|\[u8\])")),
        ("functions that read a word or a number as an enum", lambda: (f"{f}: {n}" for f, n, h, b in functions() if n not in ("from", "try_from", "from_str") and re.search(r"match \w+ \{", b) and len(re.findall(r'\n\s+(b?"[^"]*"|b\'.\'|\d+) => (Ok|Some|\w+::)', b)) > 2)),
        ("functions that turn one value into another by cases", lambda: (f"{f}: {n}" for f, n, h, b in functions() if n not in ("from", "try_from", "fmt") and re.match(r"\{\s*match \w+ \{(\s*[\w:]+(\([\w:(), _]*\))? => [\w:]+(\([\w:(), ]*\))?,?)+\s*\}\s*\}$", re.sub(r"//[^\n]*", "", b)))),
        ("functions that print", lambda: lines(r"fn (show|print|tell|report)\w*\(|fn \w+_line\b")),
    ]),
    ("5 facts and parameters that travel together", [("facts in three contracts or more", clauses), ("contracts that spell out plan, rule, automaton and cursor", lambda: (f"{f}: {n}" for f, n, h, _ in functions() if re.search(r"Plan\.meaning \w+\.(now|old)", h) and re.search(r"Rule\.meaning \w+\.(now|old)", h))), ("parameters", together)]),
    ("6 buffers with a length, parallel arrays, lists searched by hand, arenas", [
        ("fields that are arrays", lambda: lines(r"^\s+(pub(\(\w+\))? )?\w+: \[\w+; \d+\],")),
        ("fields that are lengths or places", lambda: lines(r"^\s+(pub(\(\w+\))? )?(len|size|depth|side|whole|names|delivered|at): usize,")),
        ("places in an arena", lambda: lines(r"^\s+\w+\((usize)(, usize)?\),$|Option<usize>,$", lambda f, l: "fault" not in str(f))),
        ("arrays made by hand", lambda: lines(r"\[0(u16)?; 770\]|\[0; 899\]")),
        ("references to a Vec", lambda: lines(r"&Vec<")),
    ]),
    ("7 switches on a step", [("matches on what to do", lambda: lines(r"match (self\.)?(number|command|task|verb|rule|restrictor|floor|source|name|node|call|random\.below\(\d+\)) \{"))]),
]


def main():
    for point, parts in POINTS:
        print(point)
        for title, find in parts:
            places = list(dict.fromkeys(find()))
            print(f"  {len(places):4} {title}")
            if "-v" in sys.argv:
                for p in places:
                    print("         " + p)
    answers = [f for f in pathlib.Path("crates").glob("*/proofs/**/Answers.antt")]
    count = sum(len(re.findall(r"^pub \S+ :", f.read_text(), re.M)) for f in answers)
    lemmas = [f for f in pathlib.Path("crates").glob("*/proofs/*.antt") if f.name != "Lib.antt"]
    print("8 proofs")
    print(f"  {count:4} answers in {len(answers)} files, {sum(len(f.read_text().splitlines()) for f in answers)} lines")
    print(f"  {sum(len(re.findall(r'^pub [^ ]+ :', f.read_text(), re.M)) for f in lemmas):4} lemmas in {len(lemmas)} files, {sum(len(f.read_text().splitlines()) for f in lemmas)} lines")


main()
