#!/usr/bin/env python3
"""Brings the repository's own definitions and lemmas to today's spelling: words in snake case.

usage: python3 tools/respell.py [--dry]     at the top of the repository, once, after the kit's port.py

A definition `liveCount` becomes `live_count`, a lemma `live-some` becomes `live_some`; a lemma whose new name is a definition's gets `_lem`.
Kept: types and modules, functions of src/, names of the kit's libraries, strings, and what Rattle generates. It stops where two names of one
file would fall together. Written for one run: later names have the new spelling from the start.
"""

import collections
import os
import re
import sys

ID = r"[A-Za-z_αβγκσλμρτφψω][\w'₀-₉]*(?:-[\w'₀-₉]+)*"
TOKEN = re.compile(r"(?P<str>\"(?:[^\"\\\n]|\\.)*\")|(?P<path>(?:Rattle|mathlib|Prim|native|lib|borrow)(?:\.[\w+]+(?:-[\w]+)*)+)|(?P<dot>\.)?(?P<id>" + ID + ")")
HEAD = re.compile(r"^(?P<in>[ \t]*)(?:(?:abbrev|unfoldable|opaque|pub)\s+)*(?P<names>" + ID + r"(?:[ \t]+" + ID + r")*)[ \t]*:(?=\s)", re.M)
USE = re.compile(r"^\s*(?:pub )?(?:ghost )?use ([\w.+]+?)\.\{([^}]*)\};?\s*$", re.M)


def files(ending):
    for top, dirs, names in os.walk("crates"):
        dirs[:] = sorted(d for d in dirs if d != "out")
        for n in sorted(names):
            if n.endswith(ending):
                yield os.path.join(top, n)


def read(path):
    with open(path, encoding="utf-8") as f:
        return f.read()


def snake(name):
    if re.match(r"[a-z]", name):
        name = re.sub(r"(?<=[a-z0-9])([A-Z])", lambda m: "_" + m.group(1).lower(), name)
        name = re.sub(r"([A-Z])", lambda m: "_" + m.group(1).lower(), name)
    return name.replace("-", "_")


def code_of(text):
    return re.sub(r"--.*", "", text)


own_crates = set(os.listdir("crates"))
is_own = lambda path: path.split(".")[0] == "Rattle" and len(path.split(".")) > 1 and path.split(".")[1] in own_crates
antt = {p: read(p) for p in files(".antt")}
rust = {p: read(p) for p in files(".rt")}
edits = {p: read(p) for p in files(".edit")}

# what is declared, and which of it are fields of records
declared, field_names = collections.defaultdict(set), set()
for path, text in antt.items():
    code = code_of(text)
    for m in HEAD.finditer(code):
        for n in m["names"].split():
            declared[n].add(path)
    for m in re.finditer(r"^([ \t]*)(?:pub )?record [^\n]*where\n((?:\1[ \t]+[^\n]*\n|[ \t]*\n)+)", code + "\n", re.M):
        for f in HEAD.finditer(m.group(2)):
            field_names |= set(f["names"].split())
    for m in re.finditer(r"^[ \t]*(?:pub )?data [^\n]*where\n((?:[ \t]+[^\n]*\n)+)", code + "\n", re.M):
        for f in HEAD.finditer(m.group(1)):
            for n in f["names"].split():
                declared[n].add(path)
functions = {n for t in rust.values() for n in re.findall(r"\bfn ([a-z_0-9]+)", t)}

camel = {n for n in declared if re.match(r"[a-z][^-]*[A-Z]", n) and "-" not in n}
words = {snake(n): n for n in camel}
plain = {n for n in declared if re.match(r"[a-z][a-z0-9_']*$", n)}
renamed = {c: snake(c) for c in camel}
for n in plain:
    if n in words:
        renamed[n] = n + "_lem"
renamed["are-bytes"] = "are_bytes_lem"  # the library has are_bytes
taken = set(words) | plain | set(renamed.values())


def new_of(name):
    """The new name of one that has a dash, or capitals within."""
    if name in renamed:
        return renamed[name]
    to = snake(name)
    if to != name and to in taken and name in declared:
        to += "_lem"
    return to


def library_names(text):
    found = set()
    for m in USE.finditer(text):
        if not is_own(m.group(1)):
            found |= {n.strip().split(" as ")[-1] for n in m.group(2).split(",")}
    return found


def own_names(text):
    found = set()
    for m in USE.finditer(text):
        if is_own(m.group(1)):
            found |= {n.strip() for n in m.group(2).split(",")}
    return found


def turn_token(m, kept, before, walk):
    if m["str"] or m["path"]:
        return m[0]
    name, dot = m["id"], m["dot"] or ""
    if dot:
        if before.endswith(("tie", "goal")):
            return m[0]
        to = snake(name)
        if name in field_names and not (walk and to in functions):
            return dot + new_of(name)
        if to in functions or re.sub(r"\d+$", "", to) in functions:
            return dot + to
        return dot + (new_of(name) if name in declared and name not in functions else name)
    if name in kept:
        return name
    if name in renamed or "-" in name:
        return new_of(name)
    return name


def turn_code(text, kept, walk=False):
    out, last = [], 0
    for m in TOKEN.finditer(text):
        out.append(text[last : m.start()])
        out.append(turn_token(m, kept, text[max(0, m.start() - 6) : m.start()], walk))
        last = m.end()
    return "".join(out) + text[last:]


def turn_comment(text, kept):
    """Definitions anywhere in a comment; names with a dash only between backticks."""
    text = re.sub(r"`[^`\n]*`", lambda m: turn_code(m[0], kept), text)
    return re.sub(r"(?<![\w`-])" + ID, lambda m: renamed[m[0]] if m[0] in camel else m[0], text)


def turn_lines(text, kept, mark, code):
    out = []
    for line in text.split("\n"):
        at = line.find(mark)
        if at < 0:
            out.append(code(line, kept))
        else:
            out.append(code(line[:at], kept) + turn_comment(line[at:], kept))
    return "\n".join(out)


def turn_antt(text, walk=False):
    lib = library_names(text)
    kept = {n for n in lib}

    def code(line, kept):
        u = re.match(r"\s*(?:pub )?use ([\w.+]+?)\.\{([^}]*)\}$", line)
        if u:
            if not is_own(u.group(1)):
                return line
            at = line.index("{")
            return line[:at] + turn_code(line[at:], set())
        return turn_code(line, kept, walk)

    return turn_lines(text, kept, "--", code)


def turn_rust_token(line, names):
    """In Rust text only names that clauses import, and fields behind a dot that have a dash or capitals."""

    def one(m):
        if m["str"] or m["path"]:
            return m[0]
        name, dot = m["id"], m["dot"] or ""
        if dot:
            return dot + (new_of(name) if name in camel or (name in field_names and "-" in name) else name)
        return new_of(name) if name in names and (name in camel or "-" in name or name in renamed) else name

    return TOKEN.sub(one, line)


def turn_rust(text, names):
    def code(line, kept):
        u = re.match(r"\s*ghost use ([\w.]+?)\.\{([^}]*)\};$", line)
        if u:
            if not is_own(u.group(1)):
                return line
            at = line.index("{")
            return line[:at] + turn_code(line[at:], set())
        return turn_rust_token(line, kept)

    return turn_lines(text, names, "//", code)


def check(path, old, new):
    """No two names of a file fall together."""
    a = [m["id"] for m in TOKEN.finditer(code_of(old)) if m["id"] and not m["dot"]]
    b = [m["id"] for m in TOKEN.finditer(code_of(new)) if m["id"] and not m["dot"]]
    if len(a) != len(b):
        return [f"{path}: the text has another number of names"]
    came = collections.defaultdict(set)
    for x, y in zip(a, b):
        came[y].add(x)
    return [f"{path}: {' and '.join(sorted(v))} fall together as {k}" for k, v in came.items() if len(v) > 1]


def main():
    bad, out = [], {}
    for path, text in antt.items():
        new = turn_antt(text, path.endswith("/Proof.antt"))
        bad += check(path, text, new)
        out[path] = new
    for path, text in rust.items():
        out[path] = turn_rust(text, own_names(text))
    for path, text in edits.items():
        m = re.search(r"^file: (\S+)", text, re.M)
        target = os.path.join(os.path.dirname(os.path.dirname(path)), m.group(1))
        base = rust.get(target) or antt.get(target) or ""
        lines = []
        for line in text.split("\n"):
            key = re.match(r"(old|new): ?", line)
            if not key:
                lines.append(turn_comment(line, set()) if line.startswith("#") else line)
            elif target.endswith(".rt"):
                lines.append(line[: key.end()] + turn_rust(line[key.end() :], own_names(base) | set(camel)))
            else:
                lines.append(line[: key.end()] + turn_antt(line[key.end() :]))
        out[path] = "\n".join(lines)
    for text in bad:
        print(text)
    print(f"{len(bad)} clashes")
    if bad or "--dry" in sys.argv:
        return 1 if bad else 0
    old = {**antt, **rust, **edits}
    changed = 0
    for path, text in out.items():
        if text != old[path]:
            changed += 1
            with open(path, "w", encoding="utf-8") as f:
                f.write(text)
    for folder, names in (("docs", os.listdir("docs")), (".", ["README.md", "CONTRIBUTING.md"])):
        for n in names:
            path = os.path.join(folder, n)
            if n.endswith(".md") and os.path.isfile(path):
                text = read(path)
                new = re.sub(r"`[^`\n]*`", lambda m: re.sub(r"(?<![\w-])" + ID, lambda k: new_of(k[0]) if k[0] in camel or ("-" in k[0] and k[0] in declared) else k[0], m[0]), text)
                if new != text:
                    with open(path, "w", encoding="utf-8") as f:
                        f.write(new)
    print(f"{changed} files turned")
    return 0


if __name__ == "__main__":
    raise SystemExit(main())
