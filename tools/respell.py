#!/usr/bin/env python3
"""Brings this repository's own names in specs/ and proofs/ to one spelling: types in upper camel case, all other words in snake case.

Run once, at the top, after Rattle's own scripts. It changes names that a file of specs/ or proofs/ defines (definitions, lemmas, constructors,
fields, names bound by let), where they stand in .antt files, in clauses and comments of .rt files, in must-fail edits and in docs/. It leaves
names of the library, names that Rattle makes (goals and steps), names of src/, strings, inputs and outputs. It prints what it renamed, and stops,
with nothing written, where two names of one file would fall together."""
import collections
import glob
import os
import re
import sys

SEGMENT = re.compile(r"[^\s.,;:(){}\[\]`«»\"|]+")
HEAD = re.compile(r"^\s*((?:abbrev |unfoldable |pub |data |record |ruleset |\| )*)([^\s:(){}=,]+)((?: *[({][^)}]*[)}])*) : (.*)$")
USE = re.compile(r"^\s*(?:ghost )?use (\S+?)\.\{([^}]*)\}", re.M)
# Names that Rattle makes, and whose files cite them by these words alone.
MADE = re.compile(r"^(c|w|g|l|goal|given)$")
# Names that would fall together with another.
APART = {"One-set": "OneSetIsOneRow"}


def spelled(name):
    """The name in today's spelling."""
    if name in APART or not re.match(r"^[A-Za-z]", name):
        return APART.get(name, name)
    if name[0].isupper() and "-" in name:
        return "".join(p[:1].upper() + p[1:] for p in name.split("-"))
    if name[0].isupper():
        return name
    new = name.replace("getD", "get_or").replace("-", "_")
    return re.sub(r"(?<=[a-z0-9])([A-Z])(?=[a-z])", lambda m: "_" + m[1].lower(), new)


def own_crates():
    return {os.path.basename(os.path.dirname(p)) for p in glob.glob("crates/*/src")}


def generated(path):
    """Whether the file's definitions have names that Rattle makes."""
    return os.path.basename(path) in ("Answers.antt", "Invariants.antt")


def defined(path, text):
    """Names that a file of specs/ or proofs/ defines: at its head lines, in blocks of variables, and by let."""
    found = set()
    for line in text.split("\n"):
        if line.lstrip().startswith("--"):
            continue
        m = HEAD.match(line)
        if m and not (generated(path) and "goal." in m[4]):
            found.add(m[2])
        found.update(re.findall(r"\blet ([a-z][\w'-]*)(?= (?::|=))", line))
    return found


def imported(text, crates):
    """Names that a file takes from this repository's specs/ and proofs/, and those that it takes from elsewhere."""
    own, other = set(), set()
    for path, names in USE.findall(text):
        parts = path.split(".")
        mine = len(parts) > 2 and parts[0] == "Rattle" and parts[1] in crates and parts[2] in ("specs", "proofs") and "declared" not in parts and "contracts" not in parts and parts[-1] != "Goals"
        for n in names.split(","):
            n = n.strip()
            if n:
                (own if mine else other).update(n.split(" as ")[-1:] if not mine else n.split(" as "))
    return own, other


def main():
    crates = own_crates()
    antt = sorted(p for p in glob.glob("crates/*/specs/**/*.antt", recursive=True) + glob.glob("crates/*/proofs/**/*.antt", recursive=True))
    texts = {p: open(p, encoding="utf-8").read() for p in antt}
    names = {p: defined(p, t) for p, t in texts.items()}
    shared = set().union(*(n for p, n in names.items() if not generated(p)))
    turned = {n: spelled(n) for n in set().union(*names.values()) if spelled(n) != n}

    # two names of one file that would fall together
    clash = []
    for p, ns in names.items():
        own, other = imported(texts[p], crates)
        by = collections.defaultdict(set)
        for n in ns | own | other:
            by[spelled(n) if n in ns | own else n].add(n)
        clash += [f"{p}: {sorted(s)}" for s in by.values() if len(s) > 1]
    if clash:
        print("\n".join(clash))
        raise SystemExit("names would fall together: nothing was written")

    fields = set()
    for p, t in texts.items():
        fields.update(m[2] for l in t.split("\n") if l.startswith("  ") and (m := HEAD.match(l)))

    left = collections.Counter()

    def turn(text, own, other, comments_only=False):
        out, last = [], 0
        for m in SEGMENT.finditer(text):
            word, at = m.group(0), m.start()
            core = word.rstrip("'") if word.rstrip("'") in turned else word
            if core not in turned:
                continue
            before = text[:at]
            if before.endswith("."):
                owner = re.search(r"([^\s.,;:(){}\[\]]+)\.$", before)
                if owner and MADE.match(owner[1]):
                    left[word] += 1
                    continue
                if core not in fields and not (owner and core in own):
                    left[word] += 1
                    continue
            elif core not in own:
                left[word] += core in other
                continue
            out.append(text[last:at] + turned[core] + word[len(core):])
            last = m.end()
        return "".join(out) + text[last:]

    changed = 0
    files = antt + sorted(glob.glob("crates/*/src/**/*.rt", recursive=True) + glob.glob("crates/*/must-fail/*.edit") + glob.glob("docs/*.md") + ["README.md"])
    for p in files:
        t = texts.get(p) or open(p, encoding="utf-8").read()
        own, other = imported(t, crates)
        if p in names:
            own |= names[p] | fields
        elif p.endswith(".rt"):
            own |= fields & {w for w in SEGMENT.findall(t)}
        else:
            own |= shared
        new = turn(t, own - other, other)
        if new != t:
            changed += 1
            with open(p, "w", encoding="utf-8") as f:
                f.write(new)
    for n in sorted(turned):
        print(n, "->", turned[n])
    print(f"{len(turned)} names, {changed} files; left as names of the library or of Rattle's making: {sorted(left)}", file=sys.stderr)


if __name__ == "__main__":
    main()
