#!/usr/bin/env python3
"""Spells in proofs the names that Rattle makes from the code as today's Rattle makes them.

A name from the code keeps its underscores, and so do Rattle's own words: `c.push-reserved` is
`c.push_reserved`, `invariant-of-x` is `invariant_of-x`. Fields of this repository's own records follow
tools/plain_names.py. Run once, at the top of the repository, after that script.
"""
import os
import re

TOKEN = re.compile(r"[^\s(){};,«»]+")
WORDS = ["invariant_of", "offset_bounds", "slice_bounds", "in_ok", "in_err", "in_default", "overflow_add", "overflow_sub",
         "overflow_mul", "overflow_cast", "overflow_shl", "overflow_shr", "overflow_neg", "overflow_step", "nonzero_div", "nonzero_rem",
         "range_from", "range_to", "type_inv", "well_formed"]


def read(path):
    with open(path, encoding="utf-8") as f:
        return f.read()


def code_names():
    """Names with an underscore in the code of all crates."""
    found = set(WORDS)
    for crate in os.listdir("crates"):
        src = os.path.join("crates", crate, "src")
        for name in os.listdir(src):
            found |= set(re.findall(r"\b[A-Za-z0-9]+(?:_[A-Za-z0-9]+)+\b", read(os.path.join(src, name))))
    return sorted(found, key=lambda n: -len(n))


def fields():
    """Fields of own records that plain_names.py turned: old spelling to new."""
    turned = {}
    for crate in os.listdir("crates"):
        for part in ("specs", "proofs"):
            top = os.path.join("crates", crate, part)
            for folder, _, names in os.walk(top):
                for name in names:
                    if name.endswith(".antt"):
                        for f in re.findall(r"(?m)^\s+(?:pub )?([a-z][a-z0-9]*(?:_[a-z0-9]+)+)\s+:", read(os.path.join(folder, name))):
                            turned[f.replace("_", "-")] = f
    return turned


def main():
    names = code_names()
    own = fields()
    patterns = [(re.compile(r"(?<![a-zA-Z0-9_])" + n.replace("_", "-") + r"(?![a-zA-Z0-9_])"), n) for n in names]
    changed = 0
    for folder, inner, files in os.walk("crates"):
        inner[:] = [d for d in inner if d != "out"]
        for name in files:
            if not name.endswith(".antt"):
                continue
            path = os.path.join(folder, name)
            text = read(path)
            in_function = name in ("Answers.antt", "Invariants.antt", "Proof.antt")

            def one(m):
                word = m.group(0)
                if "-" not in word:
                    return word
                if "." in word:
                    parts = word.split(".")
                    for i in range(1, len(parts)):
                        if parts[i] in own and parts[0] != "goal":
                            parts[i] = own[parts[i]]
                    word = ".".join(parts)
                if in_function and (re.search(r"(?:^|\.)(?:After|Else|Then|In|Start)-", word) or word.split(".")[0] in ("c", "l", "w", "goal") or word in heads):
                    for p, n in patterns:
                        word = p.sub(n, word)
                return word

            heads = set(re.findall(r"(?m)^(?:abbrev |pub )*(\S+)\s+:\s+goal\.", text)) if in_function else set()
            heads |= {n for s in re.findall(r"(?m)^use \S+\.(?:Goals|Given|Lts)\.\{([^}]*)\}", text) for n in re.split(r",\s*|\s+", s)} if in_function else set()
            after = TOKEN.sub(one, text)
            if after != text:
                changed += 1
                with open(path, "w", encoding="utf-8") as f:
                    f.write(after)
    print(f"{changed} files")


if __name__ == "__main__":
    main()
