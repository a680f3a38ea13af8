#!/usr/bin/env python3
"""Spells the repository's own definitions, fields and lemmas as Rattle spells words, after port.py: camel case and dashes become snake case.

usage: python3 tools/respell.py, once, at the top of the repository, after port.py

A word is in snake case: `heapOf` becomes `heap_of`, the field `firm-below` `firm_below`, the lemma `once-less` `once_less`. A dash stays where it
joins two words that are defined, as in `first-accepted`. Facts and types keep their capitals. Functions of src/, and what Rattle makes of them,
keep their names: a function's proof is `f_spec`.
"""

import collections
import glob
import os
import re

TOKEN = r"[^\s(){}.,;\[\]\"|@`]+"
OWN = r"Rattle\.(meaning|links|frames|weighing|cutting|texts|calls|answering|shell|bones|thin)\."
DEFINES = re.compile(r"^(?:(?:abbrev|unfoldable|pub|data|record|ruleset|opaque)\s+)*(" + TOKEN + r")\s*(?:[:({]|$)")
# the name of an argument
LOCAL = re.compile(r"[a-z][a-z0-9]*[A-Z][\w']*$")
FIELD = re.compile(r"^\s+(?:(?:abbrev|unfoldable|pub)\s+)*(" + TOKEN + r")\s+:\s")

# lemmas and fields that would fall together with the word that they speak of
APART = {
    "headBytes-are": "head_bytes_are",
    "cuts-of": "cuts_of_lem",
    "cut-lines": "cut_lines_lem",
    "cuts-read": "cuts_are_read",
    "entry-bytes": "entry_bytes_lem",
    "link-bytes": "link_bytes_lem",
    "link-lines": "link_lines_lem",
    "links-left": "links_after",
    "links-read": "links_are_read",
    "links-rows": "links_rows_lem",
    "names-left": "names_after",
    "no-link": "without_link",
    "off-side": "off_side_lem",
    "payload-at": "payload_at_lem",
    "renamed-in": "renamed_in_lem",
    "result-size": "result_size_lem",
    "result_rows": "result_rows_lem",
    "row-of": "row_of_lem",
    "same-label": "same_label_lem",
    "thin-printed": "thin_printed_lem",
    "well-first": "well_first_lem",
}


def antt(part):
    return sorted(glob.glob(f"crates/*/{part}/**/*.antt", recursive=True))


def read(path):
    with open(path, encoding="utf-8") as f:
        return f.read()


def defined(paths):
    """Gives the names that files define, also within a section, and the fields of their records."""
    names, fields = collections.defaultdict(set), set()
    for path in paths:
        within = False
        for line in read(path).splitlines():
            if re.match(r"--|use |pub use |mod |pub mod |unfolding ", line):
                continue
            name = not line.startswith(" ") and DEFINES.match(line)
            field = FIELD.match(line)
            if name:
                names[name[1]].add(path)
                within = bool(re.match(r"(abbrev |pub )*(record|data) ", line))
            elif field and within:
                fields.add(field[1])
            elif field:
                names[field[1]].add(path)
            elif line.strip() and not line.startswith(" "):
                within = False
    return names, fields


def imported(text):
    """Gives the names that a file brings from the kit."""
    found = set()
    for module, names in re.findall(r"^(?:pub |ghost )*use ([^{;\s]+?)\.\{(.*)\}", text, re.M):
        if not re.match(OWN, module + "."):
            found.update(it.split(" as ")[-1].strip() for it in names.split(","))
    return found


def snake(word):
    word = re.sub(r"(?<=[a-z0-9])([A-Z])", lambda it: "_" + it[1].lower(), word)
    return word


def respelt(name, words, proof):
    """Gives a name's new spelling: a dash between two words that are defined stays."""
    if proof:
        return name.replace("-", "_")
    parts = [snake(it) if re.match(r"[a-z]", it) else it for it in name.split("-")]
    new = parts[0]
    last = parts[0]
    for part in parts[1:]:
        joined = last in words and part in words
        new += ("-" if joined else "_") + part
        last = part if joined else last + "_" + part
    return new


def main():
    lemmas = [it for it in antt("proofs") if not it.endswith("/Proof.antt")]
    proofs = [it for it in antt("proofs") if it.endswith("/Proof.antt")]
    in_specs, spec_fields = defined(antt("specs"))
    in_lemmas, lemma_fields = defined(lemmas)
    in_proofs, _ = defined(proofs)
    names = {**in_lemmas, **in_specs}
    fields = spec_fields | lemma_fields
    kit = set()
    for path in antt("specs") + antt("proofs"):
        kit |= imported(read(path))
    words = {snake(it) for it in in_specs if re.match(r"[a-zA-Z]", it)} | {it for it in kit if re.fullmatch(r"[a-zA-Z][\w']*", it)}
    words |= {it for it in in_specs if re.match(r"[A-Z]", it)}
    new = {}
    for name in list(names) + sorted(fields):
        if re.match(r"[a-z]", name) and (re.search(r"[a-z0-9][A-Z]", name) or "-" in name):
            it = name.replace("-", "_") if name in fields else respelt(name, words, False)
            if it != name:
                new[name] = it
    for name in in_proofs:
        if name.endswith("-spec"):
            new[name] = name.replace("-", "_")
    new.update(APART)
    by_new = collections.defaultdict(set)
    for old, it in new.items():
        by_new[it].add(old)
    for it, olds in sorted(by_new.items()):
        if len(olds) > 1 or it in (set(names) | fields) - set(new):
            print("together:", it, sorted(olds))
    turned = collections.Counter()
    sources = sorted(glob.glob("crates/*/src/**/*.rt", recursive=True))
    edits = sorted(glob.glob("crates/*/must-fail/*.edit"))
    for path in antt("specs") + antt("proofs") + sources + edits:
        text = read(path)
        skip = imported(text)

        def turn(found):
            it = found[0]
            if it in new and it not in skip:
                turned[it] += 1
                return new[it]
            if LOCAL.match(it) and it not in skip:
                turned[it] += 1
                return snake(it)
            return it

        out = []
        for line in text.split("\n"):
            # prose stays, but for names between backticks
            if line.startswith("--") or re.match(r"\s*//", line):
                line = re.sub(r"`[^`]*`", lambda it: re.sub(TOKEN, turn, it[0]), line)
            else:
                line = re.sub(TOKEN, turn, line)
            out.append(line)
        if "\n".join(out) != text:
            with open(path, "w", encoding="utf-8") as f:
                f.write("\n".join(out))
    for path in ["README.md"] + sorted(glob.glob("docs/*.md")):
        text = read(path)
        out = re.sub(r"`[^`\n]*`", lambda it: re.sub(TOKEN, lambda t: new.get(t[0], t[0]) if re.search(r"[a-z][A-Z]|-", t[0]) else t[0], it[0]), text)
        if out != text:
            with open(path, "w", encoding="utf-8") as f:
                f.write(out)
    with open("/tmp/respelt.txt", "w", encoding="utf-8") as f:
        for old in sorted(new):
            f.write(f"{old} {new[old]} {turned[old]}\n")
    print(f"respelt: {len(new)} names, {sum(turned.values())} places")


if __name__ == "__main__":
    main()
