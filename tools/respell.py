#!/usr/bin/env python3
"""Respells the definitions and lemmas of this repository in the style of today's Rattle.

usage: python3 tools/respell.py [--list]      at the top of the repository, once, after the toolchain's port.py

Types, records and facts are in camel case, and everything else is in snake case: `Keeps-laws` becomes `KeepsLaws`,
`routeOf` and `plan-of` become `route_of` and `plan_of`. Only names that specs/ and proofs/ declare are turned. Names
of functions, of the library and of goals, strings and plain prose stay as they are. With --list it writes nothing and
prints the names.
"""
import glob
import os
import re
import sys

WORD = r"[^\s(){}\[\],;.:`\"]+"
DECLARED = re.compile(r"^\s*(?:abbrev pub |pub abbrev |abbrev |unfoldable pub |unfoldable |pub )?(data |record |module )?(" + WORD + r")\s*(?::(?!\w)|\(|\{)")
ARGUMENT = re.compile(r"[({]((?:" + WORD + r"\s+)*" + WORD + r")\s*:\s")
GOAL = re.compile(r"^(loop-|returns|invariant-|decreases-|overflow-|bounds-|tokens-|offset-)|-requires$|-(init|preserved|smaller)($|-)")
# Names that the library has too, and names that Rattle makes of the code.
KEPT = {"T_not", "eqb-false", "eqb-true", "eqb→eq", "length-map", "not-false", "T_false", "T_true", "not-T-false", "not_T"}
# Names that would fall together with another, or with a function beside them.
CHOSEN = {
    "badEntry": "bad_entry_lem",
    "bodyBelow": "body_below_lem",
    "bodyPlace": "body_place_lem",
    "classNumber": "class_number_lem",
    "floor-E-passages": "floor_e_passages",
    "law-of-listings": "law_of_listings_lem",
    "law-of-next": "law_of_next_lem",
    "listings-end": "listings_end_lem",
    "readings-agree": "readings_agree_lem",
    "routes-are-short": "routes_are_short_lem",
    "set-bit": "set_bit_lem",
    "star-frag": "looped_frag",
    "word-of": "word_of_spelling",
    "zonesOf": "zone_count_of",
}


def files():
    for pattern in ("crates/**/*.antt", "crates/**/*.rt"):
        for path in sorted(glob.glob(pattern, recursive=True)):
            if "/out/" not in path:
                yield path


def style(name):
    if name in CHOSEN:
        return CHOSEN[name]
    camel = name[0].isupper()
    parts = [p for p in re.split(r"[-_]", name) if p]
    if camel:
        return "".join(p[0].upper() + p[1:] for p in parts)
    name = "_".join(parts)
    name = re.sub(r"([a-z0-9])([A-Z])", lambda m: m.group(1) + "_" + m.group(2).lower(), name)
    return re.sub(r"_([A-Z])\b", lambda m: "_" + m.group(1).lower(), name).replace("′", "'")


def odd(name):
    return bool(re.search(r"[A-Za-z]", name)) and style(name) != name and not name.startswith("◌") and "·" not in name


def in_goal_file(path):
    """proofs/F/..: what Rattle names after the code stands there, and is public."""
    return re.search(r"/proofs/.+/", path) is not None


def declared():
    names = set()
    for path in files():
        if not path.endswith(".antt"):
            continue
        goal_file = in_goal_file(path)
        for line in open(path, encoding="utf-8"):
            text = line.split("--")[0] if line.lstrip().startswith("--") else line
            m = DECLARED.match(text)
            found = []
            if m and not text.startswith("use "):
                if not (goal_file and re.match(r"\s*(abbrev )?pub ", text)):
                    found.append(m.group(2))
            for group in ARGUMENT.findall(text):
                found += group.split()
            names.update(n for n in found if odd(n) and not (goal_file and GOAL.search(n)) and n not in KEPT)
    return names


def turn(text, names, only_ticks=False):
    if only_ticks:
        return re.sub(r"`[^`]*`", lambda m: turn(m.group(0), names), text)
    return re.sub(r"(?<![^\s(){}\[\],;.:`\"])" + WORD, lambda m: names.get(m.group(0), m.group(0)), text)


def turn_antt(text, names):
    out = []
    for line in text.split("\n"):
        code, dash, comment = line, "", ""
        m = re.search(r"(^|\s)-- ", line)
        if m:
            code, comment = line[: m.start()], line[m.start():]
        out.append(turn(code, names) + turn(comment, names, True))
    return "\n".join(out)


def turn_rt(text, names):
    out, clause, depth = [], False, 0
    for line in text.split("\n"):
        bare = line.lstrip()
        if bare.startswith("//"):
            out.append(turn(line, names, True))
            continue
        if not clause and re.match(r"(requires|ensures|ghost|invariant|loop_invariant|#\[tactic)\b", bare):
            clause, depth = True, 0
        if clause:
            out.append(turn(line, names))
            depth += line.count("{") - line.count("}")
            clause = depth > 0
        else:
            out.append(line)
    return "\n".join(out)


def main():
    names = {n: style(n) for n in declared()}
    if "--list" in sys.argv:
        for old, new in sorted(names.items()):
            print(old, new)
        return
    for path in files():
        text = open(path, encoding="utf-8").read()
        new = turn_antt(text, names) if path.endswith(".antt") else turn_rt(text, names)
        if new != text:
            open(path, "w", encoding="utf-8").write(new)


if __name__ == "__main__":
    main()
