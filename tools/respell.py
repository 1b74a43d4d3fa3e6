#!/usr/bin/env python3
"""Brings the repository's own names to today's spelling, once, after the kit's port.py.

usage: tools/respell.py           at the top of the repository: rewrites crates/, and writes the table of names to docs/PORT-NAMES.md
       tools/respell.py --dry     says what would be renamed, and which names would fall together

Words are in snake case, types, facts and modules in camel case. A dash stays in three kinds of names: where an operator and a name are joined, where a
lemma is named after its left side (`length-listed`), and in the names that Rattle makes (folders proofs/F, which are not touched but for names of specs/).
What it renames: what specs/*.antt, and proofs/*.antt directly, declare: definitions, lemmas, fields, constructors. Rust names, strings and files keep theirs.
In comments a name with a dash is renamed only between backquotes, since there it may be a plain English word.
"""
import collections
import glob
import os
import re
import subprocess
import sys
import tempfile

# What would fall together with the definition that it is about, and the name that it gets: a lemma of its function's name ends in _lem.
APART = {
    "accepted-as": "accepted_as_lem",
    "after-edges": "after_edges_lem",
    "after-kind": "after_kind_lem",
    "after-sets": "after_sets_lem",
    "after-states": "after_states_lem",
    "is-start": "is_start_lem",
    "marks-offset": "marks_offset_is",
    "opens_row": "opens_row_lem",
    "path-by": "path_by_lem",
    "record-at": "record_at_lem",
    "record_of": "record_of_lem",
    "record-of-slot": "record_of_slot_lem",
    "row-to": "row_to_lem",
    "rows-offset": "rows_offset_is",
    "same-quote": "same_quote_lem",
    "start-slot": "start_slot_lem",
    "target-wrong": "target_wrong_lem",
    "targets-offset": "targets_offset_is",
}
# A name that is only a parameter there.
LOCAL = {"crates/search/specs/Starts.antt": {"is-start": "is_start"}}
NAME = r"[^\s(){}\[\],;.\"`]+"
WORDS = r"(?:(?:pub|abbrev|unfoldable|record|data)\s+)*"
BINDERS = r"(?:\([^=]*?\)\s*|\{[^=]*?\}\s*)*"
# what port.py has renamed already: the old spelling is in the commit before it, so the table takes it from the last line of its report
ASCII = re.compile(r"^[A-Za-z0-9_'-]+$")


def declared(path):
    found = []
    with open(path, encoding="utf-8") as f:
        for line in f:
            code = re.sub(r"--.*", "", line.rstrip("\n"))
            m = re.match(rf"^\s*{WORDS}({NAME})\s+{BINDERS}:(\s|$)", code)
            if m:
                found.append(m.group(1))
    return found


def bound(path):
    """Names that stand in brackets before a colon: parameters."""
    found = []
    with open(path, encoding="utf-8") as f:
        for line in f:
            code = re.sub(r"--.*", "", line.rstrip("\n"))
            for m in re.finditer(r"[({]([^(){}\[\]:=,;.\"`λ→]+) : ", code):
                found += [w for w in m.group(1).split() if re.match(r"[a-z][A-Za-z0-9_'-]*$", w)]
    return found


def landed(path):
    """The file as it was before port.py: HEAD must be that commit still."""
    return subprocess.run(["git", "show", "HEAD:" + path], capture_output=True, text=True, check=True).stdout


def camel(name):
    return re.sub(r"(?<=[a-z0-9])([A-Z])", lambda m: "_" + m.group(1).lower(), name)


def spelled(name, functions):
    """The name in today's spelling."""
    if name in APART:
        return APART[name]
    if re.match(r"[A-Z]", name):
        return name
    parts = name.split("-")
    if len(parts) == 2 and parts[0] in ("length", "get_or") and (parts[1] in functions or not ASCII.match(parts[1])):
        return camel(name)
    out = camel(parts[0])
    for i in range(1, len(parts)):
        a, b = parts[i - 1], parts[i]
        both = not ASCII.match(a) and not ASCII.match(b)
        mixed = not ASCII.match(b) and not both
        out += ("-" if both or mixed else "_") + camel(b)
    return out


def tokens(text):
    return re.split(r"([\s(){}\[\],;.\"`]+)", text)


def turn(text, names, dashes):
    parts = tokens(text)
    for i in range(0, len(parts), 2):
        new = names.get(parts[i])
        if new and (dashes or "-" not in parts[i]):
            parts[i] = new
    return "".join(parts)


def quoted(text, names):
    return re.sub(r"`[^`]*`", lambda m: turn(m.group(0), names, True), text)


def antt(text, names):
    out = []
    for line in text.split("\n"):
        m = re.search(r"(^|\s)--(\s|$)", line)
        code, note = (line[: m.start()], line[m.start() :]) if m else (line, "")
        out.append(turn(code, names, True) + quoted(turn(note, names, False), names))
    return "\n".join(out)


def rattle(text, names):
    out = []
    for line in text.split("\n"):
        s = line.strip()
        if re.match(r"(ghost use|requires|ensures|ghost)\b", s):
            out.append(turn(line, names, True))
        elif s.startswith("//"):
            out.append(quoted(turn(line, names, False), names))
        else:
            out.append(line)
    return "\n".join(out)


def main():
    dry = sys.argv[1:] == ["--dry"]
    if sys.argv[1:] not in ([], ["--dry"]):
        print(__doc__)
        raise SystemExit(2)
    specs = sorted(glob.glob("crates/*/specs/**/*.antt", recursive=True))
    lemmas = sorted(p for p in glob.glob("crates/*/proofs/*.antt"))
    where = collections.defaultdict(list)
    for path in specs + lemmas:
        for name in declared(path):
            if path not in where[name]:
                where[name].append(path)
    functions = set(where) | {"listed"}
    parameters = {n for path in specs + lemmas for n in bound(path)} - set(where)
    names = {n: spelled(n, functions) for n in parameters if spelled(n, functions) != n}
    for name in where:
        new = spelled(name, functions)
        if new != name:
            names[name] = new
    # names that fall together
    back = collections.defaultdict(set)
    for name in where:
        back[names.get(name, name)].add(name)
    for new, olds in sorted(back.items()):
        if len(olds) > 1:
            print("together:", new, "<-", ", ".join(f"{o} ({' '.join(p[7:] for p in where[o])})" for o in sorted(olds)))
    if dry:
        for name in sorted(names):
            print(name, "->", names[name])
        return
    # In proofs/F a word may be one that Rattle makes of a function's name (c.is-start.result): those are left.
    made = set()
    for path in glob.glob("crates/*/src/**/*.rt", recursive=True):
        with open(path, encoding="utf-8") as f:
            made |= set(re.findall(r"\bfn ([a-z_0-9]+)", f.read()))
    for path in sorted(glob.glob("crates/*/specs/**/*.antt", recursive=True) + glob.glob("crates/*/proofs/**/*.antt", recursive=True)):
        with open(path, encoding="utf-8") as f:
            text = f.read()
        here = dict(names, **LOCAL.get(path, {}))
        if "/proofs/" in path:
            imported = set(tokens(" ".join(re.findall(r"^use [^\n]*", text, re.M))))
            here = {k: v for k, v in here.items() if k in imported or not ("-" in k and k.replace("-", "_") in made)}
        new = antt(text, here)
        if new != text:
            with open(path, "w", encoding="utf-8") as f:
                f.write(new)
    for path in sorted(glob.glob("crates/*/src/**/*.rt", recursive=True)):
        with open(path, encoding="utf-8") as f:
            text = f.read()
        new = rattle(text, names)
        if new != text:
            with open(path, "w", encoding="utf-8") as f:
                f.write(new)
    # Every name that was and is, port.py's with them: files declare the same names in the same order.
    turned, crates = {}, collections.defaultdict(list)
    for path in specs + lemmas:
        with tempfile.NamedTemporaryFile("w", suffix=".antt", encoding="utf-8") as f:
            f.write(landed(path))
            f.flush()
            old = declared(f.name)
        new = declared(path)
        if len(old) != len(new):
            print(f"left: {path}: {len(old)} names were declared, and {len(new)} are")
        for a, b in zip(old, new):
            if a != b:
                turned[a] = b
                crates[path.split("/")[1]].append((a, b, "/".join(path.split("/")[2:])))
    edits(turned)
    with open("docs/PORT-NAMES.md", "w", encoding="utf-8") as f:
        f.write("# Names in today's spelling\n\nWritten by `tools/respell.py` after the kit's port.py: what each crate declares under another name now.\n")
        for crate in sorted(crates):
            f.write(f"\n## {crate}\n\n| was | is | file |\n|---|---|---|\n")
            for a, b, path in sorted(set(crates[crate])):
                f.write(f"| `{a}` | `{b}` | {path} |\n")


def edits(turned):
    """Edits: their text in the same spelling. Says which one's text does not stand once."""
    library = {"bitOr": "bit_or", "getD": "get_or"}
    for path in sorted(glob.glob("crates/*/*/*.edit")):
        with open(path, encoding="utf-8") as f:
            lines = f.read().split("\n")
        crate = "/".join(path.split("/")[:2])
        kind = ""
        out = []
        for line in lines:
            if line.startswith("file: "):
                kind = line[6:]
            m = re.match(r"(old: |new:|of: )(.*)$", line)
            if m and m.group(1) == "of: ":
                line = "of: " + turned.get(m.group(2), m.group(2))
            elif m and kind.endswith(".antt"):
                text = m.group(2).replace("\u2032", "'")
                text = re.sub(r"(?<=[A-Za-z0-9_')]) \.(?=[A-Za-z0-9])", ".", text)
                text = re.sub(r"(?<=[ (])\(([A-Za-z]+\.[a-z]+)\)", r"\1", text)
                line = m.group(1) + turn(text, dict(library, **turned), True)
            out.append(line)
        if out != lines:
            with open(path, "w", encoding="utf-8") as f:
                f.write("\n".join(out))
        file, texts = "", {}
        for line in out:
            if line.startswith("file: "):
                file = f"{crate}/{line[6:]}"
                if file not in texts:
                    with open(file, encoding="utf-8") as f:
                        texts[file] = f.read()
            elif line.startswith("old: "):
                old = line[5:]
                if texts[file].count(old) != 1:
                    print(f"left: {path}: {texts[file].count(old)} times in {file}: {old}")
            elif line.startswith("new:"):
                texts[file] = texts[file].replace(old, line[4:].removeprefix(" "), 1)


main()
