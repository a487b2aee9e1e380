#!/usr/bin/env python3
"""Brings the names of this repository's own definitions and lemmas to the spelling of today's Rattle: words of a name are joined by `_`.

Run once at the top of the repository, right after the kit's port.py. Names of the library, names that Rattle makes, functions of src/, exported
C names, strings, inputs and outputs stay. So do AES-128, AES-256, GCM-AE and GCM-AD, which are the standards' own names.
"""
import glob
import re

KEPT = {"AES-128", "AES-256", "GCM-AE", "GCM-AD"}
TOKEN = re.compile(r"[^\s(){}\[\];,.`«»:\"\\|]+")


def sources(kind):
    return [f for f in sorted(glob.glob("crates/*/%s/**/*.antt" % kind, recursive=True)) if "/out/" not in f]


def declared(text):
    """The names that a file declares: definitions, lemmas, types, and the members of records and data, inside of modules and proofs too."""
    names = set()
    for line in text.split("\n"):
        for found in re.findall(r"^\s*(?:(?:abbrev|unfoldable|pub|data|record)\s+)*((?:[^\s:(){}=.]+ )+):(?: |$)", line):
            names.update(found.split())
        for found in re.findall(r"^\s*(?:(?:abbrev|unfoldable|pub)\s+)*(?:data|record)\s+([^\s:({]+)", line):
            names.add(found)
    return names


def from_the_library(text):
    """The names that a file takes from elsewhere than this repository."""
    own = {f.split("/")[1] for f in glob.glob("crates/*/src")}
    names = set()
    for module, items in re.findall(r"^(?:ghost )?use ([^\s{;]+)\.\{([^}]*)\}", text, re.M):
        parts = module.split(".")
        if parts[0] != "Rattle" or parts[1] not in own:
            names.update(TOKEN.findall(items))
    return names


def local_names(text):
    """The names that a file binds inside of its proofs."""
    names = set(re.findall(r"\blet ([a-z][\w-]*)(?= )", text))
    for bound in re.findall(r"[({]((?:[^\s(){}:]+ )+):", text):
        names.update(n for n in bound.split() if n[0].islower())
    imported = set()
    for line in re.findall(r"^use .*$", text, re.M):
        imported.update(TOKEN.findall(line))
    return {n for n in names if n not in imported}


def spelled(name):
    if name in KEPT:
        return name
    name = name.replace("getD", "get_or").replace("get_d", "get_or")
    return re.sub(r"(?<=[^\W_])-(?=[^\W_])", "_", name)


def renamed(text, names):
    return TOKEN.sub(lambda m: names.get(m.group(0), m.group(0)), text)


def in_quotes(text, names):
    """Names between backquotes, in a comment or a page."""
    return re.sub(r"`[^`\n]*`", lambda m: renamed(m.group(0), names), text)


def antt(text, names):
    lines = []
    for line in text.split("\n"):
        code, mark, comment = line, "", ""
        at = re.search(r"(?:^|\s)--(?:\s|$)", line)
        if at:
            code, comment = line[: at.start()], line[at.start() :]
        lines.append(renamed(code, names) + in_quotes(comment, names))
    return "\n".join(lines)


def clauses(text, names):
    """A source file: its `ghost use` lines, and its clauses up to the brace that closes each."""
    lines, depth = [], 0
    for line in text.split("\n"):
        if line.startswith("ghost use "):
            line = renamed(line, names)
        elif depth > 0 or re.match(r"^\s*(?:requires|ensures|ghost)\b", line):
            depth += line.count("{") - line.count("}")
            line = renamed(line, names)
        elif "//" in line:
            at = line.index("//")
            line = line[:at] + in_quotes(line[at:], names)
        lines.append(line)
    return "\n".join(lines)


def change(path, how, names):
    with open(path) as f:
        old = f.read()
    new = how(old, names)
    if new != old:
        with open(path, "w") as f:
            f.write(new)


def main():
    specs, proofs = sources("specs"), sources("proofs")
    names = set()
    library = set()
    for path in specs + proofs:
        with open(path) as f:
            text = f.read()
        names |= declared(text)
        library |= from_the_library(text)
    print("of the library, kept:", sorted(n for n in names & library if spelled(n) != n))
    names -= library
    taken = {n for n in names if spelled(n) == n}
    table = {}
    for name in sorted(names):
        new = spelled(name)
        if new != name:
            if new in taken:
                print("two names fall together:", name, new)
            taken.add(new)
            table[name] = new
    for path in specs + proofs:
        with open(path) as f:
            text = f.read()
        own = {n: spelled(n) for n in local_names(text) if spelled(n) != n}
        change(path, antt, {**own, **table})
    for path in sorted(glob.glob("crates/*/src/**/*.rt", recursive=True)):
        change(path, clauses, table)
    # the pages also name what port.py has spelled anew
    pages = {n.replace("_", "-"): n for n in taken if "_" in n}
    for path in ["README.md"] + sorted(glob.glob("docs/**/*.md", recursive=True)):
        change(path, in_quotes, {**pages, **table})
    print(len(table), "names")


main()
