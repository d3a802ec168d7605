#!/usr/bin/env python3
"""Respells this repository's own definitions and lemmas: words in snake case, types in camel case.

usage: python3 tools/respell.py          in the repository, once, right after the kit's port.py: rewrites crates/*/ in place
       python3 tools/respell.py list     prints what it would rename, and which new names fall together

A name is taken where specs/ or proofs/ declare it: a signature, a field, a case, a record or a data type. A name whose
signature ends in `Type 0` is a type. Functions of src/, strings, inputs and outputs keep their names.
"""

import collections
import os
import re
import sys

KEYWORDS = {"let", "in", "use", "open", "where", "module", "record", "data", "elim", "unfolding", "ghost", "pub", "abbrev",
            "unfoldable", "mutual", "syntax", "λ", "as", "renaming"}
NAME = r"[A-Za-z_][\w']*(?:-[\w']+)*"
SIGNATURE = re.compile(r"^(\s*)((?:(?:pub|abbrev|unfoldable)\s+)*)(" + NAME + r"(?:[ ]+" + NAME + r")*)((?:\s*[({][^:]*:[^)}]*[)}])*)\s+:\s+(.*)$")
HEAD = re.compile(r"^\s*(?:pub\s+)?(?:record|data)\s+(" + NAME + r")\b")
# A parameter of a module, which is a type.
MADE = {"F"}
# Names that an import gives by `as`.
ALIASES = {"sentEvent": "sent_event"}
# Where the rule's name would fall together with another one, another one.
CHOSEN = {
    "offers": "IsOffered",
    "ends-line": "after_line_end",
    "is-mark": "begins_with_mark",
    "is-text": "text_is_decided",
    "over-line": "line_is_over",
    "over-id": "id_is_over",
    "over-type": "type_is_over",
    "over-data": "data_is_over",
    "over-sink": "sink_is_over",
    "type-size": "size_of_type",
    "type-some": "type_record_some",
    # two lemmas that port.py has respelled, so that the cases goesOn and tooLong can have these names
    "goes_on": "turn_goes_on",
    "too_long": "turn_is_too_long",
}


def files(root):
    for folder, dirs, names in os.walk(os.path.join(root, "crates")):
        dirs[:] = sorted(d for d in dirs if d not in ("out", "must-fail", "data"))
        for name in sorted(names):
            if name.endswith((".rt", ".antt")):
                yield os.path.join(folder, name)


def plain(text):
    text = re.sub(r"--.*", "", text)
    return re.sub(r'"(?:\\.|[^"\\])*"', '""', text)


def words(name):
    """The words of a name, by hyphens, underscores and capitals."""
    parts = []
    for part in re.split(r"[-_]", name):
        parts += re.findall(r"[A-Z]+(?![a-z])[0-9']*|[A-Z]?[^A-Z]+", part) or ([part] if part else [])
    return parts


def snake(name):
    lead = "_" if name.startswith("_") else ""
    return lead + "_".join(w.lower() for w in words(name))


def camel(name):
    return "".join(w[:1].upper() + w[1:] for w in words(name))


def declared(root):
    """name -> set of 'type' or 'word'."""
    found = collections.defaultdict(set)
    where = collections.defaultdict(set)
    for path in files(root):
        if not path.endswith(".antt"):
            continue
        with open(path, encoding="utf-8") as f:
            lines = plain(f.read()).split("\n")
        for i, line in enumerate(lines):
            h = HEAD.match(line)
            if h:
                found[h.group(1)].add("type")
                where[h.group(1)].add(path)
                continue
            m = SIGNATURE.match(line)
            if not m:
                continue
            names = m.group(3).split()
            if any(n in KEYWORDS for n in names):
                continue
            kind = m.group(5)
            j = i + 1
            while j < len(lines) and lines[j].strip() and len(lines[j]) - len(lines[j].lstrip()) > len(m.group(1)) + 3:
                kind += " " + lines[j].strip()
                j += 1
            # an answer or an invariant, whose name the kit makes
            if re.match(r"\w+\.", kind):
                continue
            is_type = re.search(r"(?:^|→)\s*Type(?: \d)?\s*$", kind.strip()) is not None
            for n in names:
                found[n].add("type" if is_type else "word")
                where[n].add(path)
    return found, where


def renames(root):
    found, where = declared(root)
    out = dict(ALIASES)
    for name in out:
        found[name].add("word")
    for name, kinds in found.items():
        if name in MADE:
            continue
        if name in CHOSEN:
            new = CHOSEN[name]
        elif kinds == {"type"}:
            new = camel(name) if re.search(r"[-_]|^[a-z]", name) else name
        elif re.search(r"-|[A-Z]", name):
            new = snake(name)
        else:
            new = name
        if new != name:
            out[name] = new
    return out, where, found


def token(name):
    return r"(?<![\w'-])" + re.escape(name) + r"(?![\w'-])"


RUST_KEPT = re.compile(r'''b?'(?:\\.|[^'\\\n])'|b?"(?:\\.|[^"\\])*"|(//[^\n]*)''')
SPEC_KEPT = re.compile(r'''"(?:\\.|[^"\\\n])*"|(--[^\n]*)''')


def turn(text, pattern, table, is_rust):
    """Renames outside strings and characters, which keep their words."""
    def respelled(piece):
        return pattern.sub(lambda m: table[m.group()], piece)

    out, at = [], 0
    for m in (RUST_KEPT if is_rust else SPEC_KEPT).finditer(text):
        out.append(respelled(text[at:m.start()]))
        out.append(respelled(m.group()) if m.group(1) else m.group())
        at = m.end()
    out.append(respelled(text[at:]))
    return "".join(out)


def main():
    root = os.path.join(os.path.dirname(os.path.abspath(__file__)), "..")
    if not os.path.isdir(os.path.join(root, "crates")):
        root = "."
    table, where, found = renames(root)
    if sys.argv[1:] == ["list"]:
        tokens = collections.defaultdict(set)
        for path in files(root):
            with open(path, encoding="utf-8") as f:
                for m in re.finditer(r"(?<![\w'-])" + NAME, plain(f.read())):
                    tokens[m.group()].add(os.path.relpath(path, root))
        back = collections.defaultdict(list)
        for old, new in sorted(table.items()):
            print(old, "->", new, "/".join(sorted(found[old])))
            back[new].append(old)
        for new, olds in sorted(back.items()):
            if len(olds) > 1:
                print("TOGETHER", new, olds)
            shared = set()
            for old in olds:
                shared |= tokens[old] & tokens.get(new, set())
            if shared:
                print("TAKEN", new, olds, sorted(shared))
        return
    pattern = re.compile("|".join(token(n) for n in sorted(table, key=len, reverse=True)))
    for path in files(root):
        with open(path, encoding="utf-8") as f:
            old = f.read()
        new = turn(old, pattern, table, path.endswith(".rt"))
        if new != old:
            with open(path, "w", encoding="utf-8") as f:
                f.write(new)


if __name__ == "__main__":
    main()
