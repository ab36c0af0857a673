#!/usr/bin/env python3
"""Brings this repository's own names in specs/, proofs/ and clauses to the spelling of today's library.

A definition, lemma, field or constructor is spelled in snake case, and a fact or a type in camel case.
Names that Rattle makes from the code (goals, steps, loops) and names of the library stay as they are.
Run once, at the top of the repository: tools/plain_names.py. It prints names that fall together and stops.
"""
import os
import re
import sys

WORD = re.compile(r"[^\s(){}.;,«»]+")
HEAD = re.compile(r"^\s*(?:(?:abbrev|unfoldable|pub|record|data)\s+)*([^\s(){}.;,:«»]+)\s+(?=[:({])")
SKIP = ("use ", "pub use ", "ghost use ", "--", "//", "unfolding ", "mod ", "pub mod ")


# Names whose plain spelling is another name already.
APART = {"listWord": "after_list_word", "solidWord": "after_solid_word", "place-of": "place_in_order"}


def files():
    for folder, inner, names in os.walk("crates"):
        inner[:] = sorted(d for d in inner if d != "out")
        for name in sorted(names):
            if name.endswith((".antt", ".rt")):
                yield os.path.join(folder, name)


def plain(name):
    """The name in today's spelling."""
    if name in APART:
        return APART[name]
    if name[0] in "*+-" or not re.search(r"[a-z]-|-[a-zℤ0-9]|[a-z0-9][A-Z]", name):
        return name
    if name[0].isupper() and name[0] != "ℤ":
        parts = name.split("-")
        return "".join(p[0].upper() + p[1:] for p in parts if p) if "-" in name else name
    name = re.sub(r"(?<=[a-z0-9])([A-Z])", lambda m: "_" + m.group(1).lower(), name)
    return name.replace("-", "_")


def own_names(texts):
    """Each name that a file of specs/ or proofs/ declares, but answers to goals."""
    own = {}
    for path, text in texts.items():
        if not path.endswith(".antt"):
            continue
        for line in text.splitlines():
            if line.strip().startswith(SKIP):
                continue
            m = HEAD.match(line)
            if m and not re.search(r":\s*goal\.", line) and not re.search(r"\bgoal\.", line.split(":", 1)[-1][:12]):
                own.setdefault(m.group(1), set()).add(path)
    return own


def imports(text, crates):
    """The names that a file takes from the library, and the modules that it names by an alias."""
    kit, aliases = set(), set()
    for m in re.finditer(r"(?m)^\s*(?:pub |ghost )?use ([^\s;{]+?)(?:\.\{([^}]*)\})?(?:\s+as\s+(\S+?))?;?$", text):
        module, names, alias = m.groups()
        crate = re.match(r"Rattle\.(\w+)\.", module)
        mine = crate is not None and crate.group(1) in crates
        if alias:
            aliases.add(alias)
        elif not names:
            aliases.add(module.split(".")[-1])
        if names and not mine:
            for one in names.split(","):
                kit.add(one.split(" as ")[-1].strip().strip("«»"))
    return kit, aliases


def main():
    crates = set(os.listdir("crates"))
    texts = {}
    for path in files():
        with open(path, encoding="utf-8") as f:
            texts[path] = f.read()
    own = own_names(texts)
    turn = {n: plain(n) for n in own if plain(n) != n}
    library = set()
    for text in texts.values():
        library |= imports(text, crates)[0]
    bad = []
    seen = {}
    for old, new in sorted(turn.items()):
        if new in library or {p.split("/")[1] for p in own.get(new, ())} & {p.split("/")[1] for p in own[old]}:
            bad.append(f"{old}: {new} is taken, in {sorted(own.get(new, ['the library']))[:2]}; {old} in {sorted(own[old])[:2]}")
        if new in seen:
            bad.append(f"{old} and {seen[new]} are both {new}")
        seen[new] = old
    both = sorted(n for n in turn if n in library)
    if "--look" in sys.argv or bad:
        print("\n".join(bad))
        print("also in the library:", both)
        if "--force" not in sys.argv:
            return 1 if bad else 0
    for path, text in texts.items():
        kit, aliases = imports(text, crates)

        def one(m):
            word = m.group(0)
            if word not in turn or word in kit:
                return word
            if m.start() and m.string[m.start() - 1] == ".":
                head = re.search(r"([^\s(){}.;,«»]+)\.$", m.string[: m.start()])
                if head and head.group(1) not in aliases and head.group(1) in ("c", "l", "w", "goal"):
                    return word
            return turn[word]

        after = WORD.sub(one, text)
        if after != text:
            with open(path, "w", encoding="utf-8") as f:
                f.write(after)
    print(f"{len(turn)} names")
    return 0


if __name__ == "__main__":
    sys.exit(main())
