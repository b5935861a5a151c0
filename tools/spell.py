#!/usr/bin/env python3
"""Brings the repository's own definitions and lemmas to the library's spelling, once: words in snake case, a dash only between two
names; and the crate `bytes`, whose name the library has, to `file_bytes`. Run at the top, after the kit's own script.

A name is the repository's own where a file of specs/ or proofs/ declares it and no import from elsewhere brings it. Names of src/,
and the names that the prover makes (what stands behind `tie.`, `goal.`, `Need-`), stay."""
import collections
import glob
import os
import re
import subprocess
import sys

NAME = r"[^\s(){}\[\].,;:`\"@]+"
DECLARED = re.compile(r"^(\s*)((?:abbrev |unfoldable |private |pub |data |record )*)(" + NAME + r")((?:\s*[({].*)?\s*:(?:\s|$)|(?:\s+[({].*)?\s+where\s*$)")
IMPORT = re.compile(r"^\s*(?:ghost |pub )*use ([^\s{]+)\{([^}]*)\}")
OPEN = re.compile(r"^\s*open .* use \{([^}]*)\}")
FUNCTION_PROOF = re.compile(r"/proofs/.*/(Proof|Answers|Invariants|Measures|Given)\.antt$")


# Two names that would fall together: the definition takes the plain spelling, and the other one is told apart here.
APART = {
    "no-time": "zero_time",
    "no-energy": "zero_energy",
    "first-time": "time_of_first",
    "first-energy": "energy_of_first",
    "spot-of": "spot_of_junction",
    "parents-pass": "parents_pass_lem",
    "table-places": "has_table_places",
    "energy-at": "energy_at_lem",
    "time-at": "time_at_lem",
    "time-fits": "fitting_time",
    "energy-fits": "fitting_energy",
    "list-number-of": "list_number_of_lem",
    "count-end": "counted_end",
}

# The library has a crate of the old name.
OLD_CRATE, NEW_CRATE = "bytes", "file_bytes"


def files():
    out = []
    for top in ("crates", "tests/edits"):
        for path, _, names in os.walk(top):
            if "/out" in path or "/target" in path:
                continue
            out += [os.path.join(path, n) for n in names if n.endswith((".antt", ".rt", ".edit"))]
    return sorted(out)


def snake(part):
    if re.match(r"^[A-Z]", part):
        return part
    part = re.sub(r"([a-z0-9])([A-Z])", r"\1_\2", part)
    part = re.sub(r"([A-Z])([A-Z][a-z])", r"\1_\2", part)
    return part.lower()


def crates():
    return [line.split(":")[0].split()[0] for line in open("crates.txt") if line.strip() and not line.startswith("#")]


def declared(paths, own):
    """Each declared name with where it is declared: spec, lemma or proof."""
    seen = collections.defaultdict(set)
    outside = set()
    for path in paths:
        if not path.endswith(".antt"):
            for line in open(path):
                m = IMPORT.match(line) if line.lstrip().startswith("ghost ") else None
                if m and not any(m.group(1).startswith(f"Rattle.{c}.") for c in own):
                    outside |= {n.strip().split(" as ")[-1] for n in m.group(2).split(",")}
            continue
        kind = "spec" if "/specs/" in path else ("proof" if FUNCTION_PROOF.search(path) else "lemma")
        for line in open(path):
            if line.lstrip().startswith("--"):
                continue
            m = IMPORT.match(line)
            if m:
                if not any(m.group(1).startswith(f"Rattle.{c}.") for c in own):
                    outside |= {n.strip().split(" as ")[-1] for n in m.group(2).split(",")}
                continue
            m = DECLARED.match(line)
            if m and m.group(3) not in ("module", "where", "let", "in", "open"):
                seen[m.group(3)].add(kind)
    return seen, outside


def renaming(seen, outside):
    names = {snake(n) for n in seen if "-" not in n} | {n for n in outside if "-" not in n}
    names |= {snake(n) for n, k in seen.items() if "spec" in k}
    names -= {"is", "of", "to", "at", "a", "b", "c", "n", "k", "i", "h", "g", "f", "s", "t", "u", "v", "w", "x", "y", "z", "e", "p", "q", "r"}
    types = {n for n in names if n[:1].isupper()}
    words = {n for n in names if len(n) > 3 or n in types}
    out = {}
    for n, kinds in seen.items():
        if n in outside or n.startswith("Need-"):
            continue
        if kinds == {"proof"} and not re.search(r"[a-z0-9][A-Z]", n):
            continue
        parts = [snake(p) for p in n.split("-")]
        joint = "-" if "spec" not in kinds and all(p in words for p in parts) else "_"
        new = joint.join(parts)
        new = APART.get(n, new)
        if new != n:
            out[n] = new
    return out


def main():
    own = crates()
    paths = files()
    seen, outside = declared(paths, own)
    new = renaming(seen, outside)
    taken = collections.Counter(new.values())
    for n in list(new):
        if taken[new[n]] > 1 or new[n] in seen or new[n] in outside:
            print(f"falls together, stays: {n} -> {new[n]}", file=sys.stderr)
            del new[n]
    if "--list" in sys.argv:
        for n in sorted(new):
            print(n, new[n], ",".join(sorted(seen[n])))
        return
    if os.path.isdir(f"crates/{OLD_CRATE}"):
        subprocess.run(["git", "mv", f"crates/{OLD_CRATE}", f"crates/{NEW_CRATE}"], check=True)
        listed = open("crates.txt").read()
        listed = re.sub(rf"(?m)(?<![\w]){OLD_CRATE}(?=[:\s])(?!.*#)", NEW_CRATE, listed)
        open("crates.txt", "w").write(listed)
        paths = files()
    token = re.compile(r"(?<![\w'\-≺⊑⊕𝟘?])[\w'≺⊑⊕𝟘?][\w'\-≺⊑⊕𝟘?]*")
    variable = re.compile(r"^[a-z][a-z0-9]*([A-Z][A-Za-z0-9]*)+$")

    def turn(line, proof):
        def one(m):
            name = m.group(0)
            if name not in new:
                return snake(name) if variable.match(name) and name not in outside else name
            before = line[:m.start()]
            if re.search(r"\b(tie|goal)\.$", before) or (proof and re.search(r"\b(c|before)\.$", before)):
                return name
            return new[name]

        return token.sub(one, line)

    for path in paths:
        text = open(path).read()
        lines = []
        proof = FUNCTION_PROOF.search(path)
        for line in text.split("\n"):
            stripped = line.lstrip()
            comment = stripped.startswith(("--", "//", "#"))
            if comment:
                line = re.sub(r"`([^`]*)`", lambda m: "`" + turn(m.group(1), proof) + "`", line)
            else:
                code, sep, said = line, "", ""
                m = re.search(r"\s(--|//) ", line)
                if m:
                    code, said = line[:m.start()], line[m.start():]
                line = turn(code, proof) + said
            lines.append(line)
        turned = "\n".join(lines)
        turned = turned.replace(f"Rattle.{OLD_CRATE}.", f"Rattle.{NEW_CRATE}.").replace(f"use {OLD_CRATE}::", f"use {NEW_CRATE}::")
        if turned != text:
            open(path, "w").write(turned)


if __name__ == "__main__":
    main()
