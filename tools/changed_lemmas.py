"""Prints the public lemmas of crates/*/proofs/*.antt that are not as they were at a commit: gone, new, or of another type.

    python3 tools/changed_lemmas.py COMMIT
"""
import re
import subprocess
import sys


def lemmas(text):
    found = {}
    for m in re.finditer(r"^( *)(?:abbrev |unfoldable )?pub (?:record |data )?([^\s({]+)((?:(?!\n *(?:\2|unfolding|pub|abbrev|module|use|--)).)*)", text, re.M | re.S):
        kind = " ".join(m[3].split())
        found[m[2]] = re.sub(r"^: ", "", kind)
    return found


def at(commit):
    names = subprocess.run(["git", "ls-tree", "-r", "--name-only", commit], capture_output=True, text=True).stdout.split("\n")
    out = {}
    for n in names:
        m = re.fullmatch(r"crates/(\w+)/proofs/(\w+)\.antt", n)
        if m and m[2] != "Lib":
            text = subprocess.run(["git", "show", f"{commit}:{n}"], capture_output=True, text=True).stdout
            for k, v in lemmas(text).items():
                out[f"{m[1]} {m[2]}.{k}"] = v
    return out


old, new = at(sys.argv[1]), at("HEAD")
for k in sorted(set(old) | set(new)):
    if k not in new:
        print(f"gone: {k}\n  - {old[k]}")
    elif k not in old:
        print(f"new: {k}\n  + {new[k]}")
    elif old[k] != new[k]:
        print(f"changed: {k}\n  - {old[k]}\n  + {new[k]}")
