#!/usr/bin/env python3
"""Respells this repository's own definitions and lemmas as today's Rattle spells names. It ran once, after the kit's own script, when the repository was ported.

    tools/respell.py        at the top of the repository: rewrites crates/ in place, and prints old and new names

A word is in snake case: colBytes becomes col_bytes. A dash stays between two words that name something, as in length-build, 'the length of a build'; a plain
word is added with an underscore, as in block_few. Types, modules and names of the sources, of strings, inputs and outputs stay.
It writes nothing where two names would fall together.
"""
import collections
import glob
import re
import sys

WORD = r"[^\s(){}.;,@\"«»\[\]\\]+"
TOKEN = re.compile(r"--[^\n]*|//[^\n]*|\"(?:[^\"\\\n]|\\.)*\"|«[^»]*»|" + WORD + r"|.", re.S)
# Words of std and of the logic that name a function, so that a dash before or after them stays.
NAMES = set(
    "length take drop get_or set append suc add sub mul div mod pow and or xor shl shr shift replicate cons snoc map put_mid min max leb ltb eqb build select".split()
)


def snake(part):
    if part[:1].isupper() or not part:
        return part
    part = part.replace("getD", "get_or")
    part = re.sub(r"(?<=[a-z0-9])([A-Z])", lambda m: "_" + m.group(1).lower(), part)
    return re.sub(r"(?<=[a-z])16At$", "16_at", part)


def files(root, kinds):
    for kind in kinds:
        yield from sorted(glob.glob(root + "/crates/*/" + kind, recursive=True))


def declared(root):
    """The names that specs/ and the lemma files of proofs/ declare, and the private lemmas of a function's proof."""
    words, fields = collections.defaultdict(set), collections.defaultdict(set)
    for path in files(root, ["specs/**/*.antt", "proofs/**/*.antt"]):
        walks = path.endswith("/Proof.antt")
        for line in open(path, encoding="utf-8"):
            head = re.match(r"\s*(?:(?:unfoldable|abbrev|pub|ruleset|data|record) )*(" + WORD + r")(?: :| =| \(|$)(.*)", line)
            if not head or line.startswith(("--", "use", "module")):
                continue
            name = head.group(1)
            if re.match(r"\s+pub " + re.escape(name) + " :", line):
                # a definition of an inner module looks like a field, and both are respelled alike
                fields[name].add(path)
            elif re.match(r"\s*(?:(?:unfoldable|abbrev|pub|ruleset|data|record) )+", line) or re.match(r"\s*" + re.escape(name) + " :", line):
                # the goals of a function and its proof itself are named by Rattle
                if walks and (re.search(r": \{?.*?(tie\.|statement M)", line) or name.endswith(("-spec", "_spec"))):
                    continue
                words[name].add(path)
    return words, fields


def renamed(names, definitions):
    known = NAMES | {snake(n) for n in definitions if "-" not in n}
    out = {}
    for name in names:
        parts = [snake(p) for p in name.split("-")]
        new = parts[0]
        left = parts[0]
        for part in parts[1:]:
            joins = left in known and part in known and not part.isdigit()
            new += ("-" if joins else "_") + part
            left = part if joins else left + "_" + part
        if new != name:
            out[name] = new
    return out


def apart(both, olds):
    """A lemma that would have the name of a definition ends in `_lem`."""
    spelt = collections.Counter(both.values())
    for name in sorted(both):
        if "-" in name and (spelt[both[name]] > 1 or both[name] in olds):
            spelt[both[name]] -= 1
            both[name] += "_lem"
    for name in sorted(olds):
        if name not in both and name in both.values():
            both[name] = name + "_lem"


def main():
    root = "."
    words, fields = declared(root)
    definitions = {n for n in words if any("/specs/" in p for p in words[n])}
    own = renamed([n for n in words if re.match(r"[a-zμ]", n)], definitions)
    inner = renamed([n for n in fields if re.match(r"[a-z]", n)], definitions)
    both = dict(inner, **own)
    olds = set(words) | set(fields)
    apart(both, olds)
    seen = collections.Counter()
    for path in files(root, ["specs/**/*.antt", "proofs/**/*.antt"]):
        for t in TOKEN.findall(open(path, encoding="utf-8").read()):
            seen[t] += 1
    bad = 0
    for new, many in sorted(collections.Counter(both.values()).items()):
        if many > 1:
            print("fall together:", [o for o in both if both[o] == new], new)
            bad = 1
    for old, new in sorted(both.items()):
        if new in olds and new not in both:
            print("taken already:", old, new)
            bad = 1
        elif new in seen:
            print("stands as another kind of name too:", old, new, seen[new])
        print("renamed:", old, new)
    if bad:
        print("nothing was written")
        return 1
    for path in files(root, ["specs/**/*.antt", "proofs/**/*.antt", "src/**/*.rt"]):
        text = open(path, encoding="utf-8").read()
        source = path.endswith(".rt")
        out, before = [], ""
        for t in TOKEN.findall(text):
            if source and "-" in t:
                new = t if not re.match(r"[a-z]", t) else both.get(t, t)
            elif t.startswith(("--", "//")):
                new = re.sub(r"`(" + WORD + ")`", lambda m: "`" + both.get(m.group(1), m.group(1)) + "`", t)
                new = re.sub(r"(?<![\w-])[a-z]+[a-z0-9]*[A-Z]\w*(?![\w-])", lambda m: both.get(m.group(0), m.group(0)), new)
            elif before == "." and "-" in t and path.endswith("/Proof.antt"):
                new = inner.get(t, t)  # behind a dot a step of the code may have a lemma's name
            else:
                new = both.get(t, t)
            out.append(new)
            before = t
        if "".join(out) != text:
            open(path, "w", encoding="utf-8").write("".join(out))
    return 0


if __name__ == "__main__":
    sys.exit(main())
