#!/usr/bin/env python3
"""Places of the design pass (docs/DESIGN-PASS.md): python3 tools/places.py twins|facts [COMMIT]

twins   groups of functions that are alike but for names of types, numbers and constants
facts   facts that stand in the contracts of three or more functions; and groups of three or more parameters that travel together
"""
import collections
import re
import subprocess
import sys


def sources(commit):
    names = subprocess.run(
        ["git", "ls-tree", "-r", "--name-only", commit, "crates"], capture_output=True, text=True, check=True
    ).stdout.split()
    for name in names:
        if "/src/" in name and name.endswith(".rt"):
            yield name, subprocess.run(["git", "show", f"{commit}:{name}"], capture_output=True, text=True, check=True).stdout


def functions(text):
    head = re.compile(r'^( *)(?:pub(?:\([^)]*\))? )?(?:const )?(?:unsafe )?(?:extern "C" )?fn (\w+)[^{;]*?(?:\{|$)', re.M)
    for m in re.finditer(r'^( *)(?:pub(?:\([^)]*\))? )?(?:extern "C" )?fn (\w+)(.*?)\n\1\{\n(.*?)\n\1\}\n', text, re.M | re.S):
        yield m.group(2), m.group(3), m.group(4)
    for m in re.finditer(r'^( *)(?:pub(?:\([^)]*\))? )?fn (\w+)(\([^{]*?) \{\n(.*?)\n\1\}\n', text, re.M | re.S):
        if "\n" not in m.group(3):
            yield m.group(2), m.group(3), m.group(4)


def shape(body):
    body = re.sub(r"//[^\n]*", "", body)
    tokens = re.findall(r"[A-Za-z_]\w*|\d\w*|\S", body)
    keep = set("let mut if else match for in while return loop break true false as self".split())
    names = {}
    out = []
    for t in tokens:
        if t in keep or not re.match(r"\w", t):
            out.append(t)
        elif re.match(r"\d", t) or re.match(r"[A-Z][A-Z0-9_]+$", t):
            out.append("N")
        elif re.match(r"(u8|u16|u32|u64|usize|[A-Z]\w*)$", t):
            out.append("T")
        else:
            out.append(names.setdefault(t, f"v{len(names)}"))
    return " ".join(out)


def twins(commit):
    groups = collections.defaultdict(list)
    for name, text in sources(commit):
        for fn, _, body in functions(text):
            if len(body.split("\n")) >= 4:
                groups[shape(body)].append(f"{name}: {fn}")
    groups = [g for g in groups.values() if len(g) > 1]
    for g in sorted(groups):
        print("; ".join(g))
    print(len(groups), "groups,", sum(map(len, groups)), "functions")


def facts(commit):
    seen = collections.defaultdict(set)
    lists = collections.defaultdict(set)
    for name, text in sources(commit):
        for fn, head, _ in functions(text):
            for m in re.finditer(r"requires \{(.*)\}", head):
                for part in m.group(1).split("×"):
                    part = part.strip().strip("()").strip()
                    if part:
                        seen[part].add(f"{name}:{fn}")
            params = re.findall(r"(\w+): ([^,()]+)", head.split("requires")[0].split("ensures")[0])
            names = [p for p, _ in params]
            for i in range(len(names) - 2):
                lists[tuple(names[i : i + 3])].add(f"{name}:{fn}")
    many = {k: v for k, v in seen.items() if len(v) >= 3}
    for k, v in sorted(many.items(), key=lambda x: -len(x[1])):
        print(len(v), k)
    print(len(many), "facts in three or more contracts")
    many = {k: v for k, v in lists.items() if len(v) >= 3}
    for k, v in sorted(many.items(), key=lambda x: -len(x[1])):
        print(len(v), ", ".join(k))
    print(len(many), "groups of three parameters in three or more functions")


if __name__ == "__main__":
    if len(sys.argv) < 2 or sys.argv[1] not in ("twins", "facts"):
        sys.exit(__doc__)
    {"twins": twins, "facts": facts}[sys.argv[1]](sys.argv[2] if len(sys.argv) > 2 else "HEAD")
