#!/usr/bin/env python3
"""Counts the places of docs/DESIGN-PASS.md in src/ and in proofs: `tools/design_count.py COMMIT [--list]`, for the tree of a commit; with no
commit, for the files as they stand. Comments are not counted."""
import collections
import os
import re
import subprocess
import sys

commit = next((a for a in sys.argv[1:] if not a.startswith("-")), None)
listed = "--list" in sys.argv


def git(*words):
    return subprocess.run(["git", *words], capture_output=True, text=True, check=True).stdout


def files(pattern):
    names = git("ls-tree", "-r", "--name-only", commit) if commit else git("ls-files", "-co", "--exclude-standard")
    for name in names.split("\n"):
        if re.fullmatch(pattern, name) and (commit or os.path.exists(name)):
            yield name, git("show", f"{commit}:{name}") if commit else open(name).read()


sources = [(n, "\n".join(re.sub(r"(^|\s)//.*", "", l) for l in s.split("\n"))) for n, s in files(r"crates/[^/]+/src/.*\.rt")]
answers = list(files(r"crates/[^/]+/proofs/.*Answers\.antt"))


def count(label, pattern, among=None):
    found = []
    for name, text in among or sources:
        for number, line in enumerate(text.split("\n"), 1):
            if re.search(pattern, line):
                found.append(f"{name}:{number}: {line.strip()[:110]}")
    print(f"{len(found):5}  {label}")
    if listed:
        for place in found:
            print("         ", place)


print("1 types, own, by what they are")
count("enums and structs", r"^\s*(pub(\(crate\))? )?(enum|struct) \w")
count("a variant that is a stop or nothing", r"^\s*(Pass|Stopped\(Stop\)|Unread\(Stop\)|Unseen\(Stop\)|Refused\(Stop\)|Malformed|NoDigit),")
count("a field that is a flag or a check beside a value", r"^\s*(pub )?(is_\w+|present|good|cut|check|start|looked|given): (bool|Check|Start|Looked|Given),")
count("places that test or make one", r"\b(Check|Start|Looked|Summed)::[A-Z]|Left::NoStore|Settings::(Read|Unread)|Found::(Malformed|At)|Progress::Refused|Given::[A-Z]|\.(is_number|is_read|is_size|present)\b")
print("2 twins")
count("functions that cast a byte or make an array of one length", r"fn (wide|twelve|sixteen|low)\(")
print("3 loops")
count("while", r"^\s*while ")
count("for over a range", r"^\s*for \w+ in [^\[]*\.\.")
count("for over anything else", r"^\s*for (?!\w+ in [^\[]*\.\.)")
print("4 by hand")
count("as", r" as (u8|u16|u32|u64|usize)\b")
count("a match arm that is true or false", r"=> (true|false),")
print("5 parameters and facts")
many, groups, facts = [], collections.Counter(), collections.Counter()
sets = (("pages", "slots", "ring"), ("pages", "slots", "ring", "fram"), ("table", "keys", "rounds"), ("key", "nonce", "packet", "open", "secret"), ("half", "start", "open", "secret"))
for name, text in sources:
    for m in re.finditer(r"\bfn (\w+)(?:<[^>]*>)?\(([^{]*?)\)(?: ->[^\n{]*)?(?: \{)?\n", text):
        taken = [x.strip().split(":")[0].strip() for x in re.split(r",(?![^<\[]*[>\]])", m.group(2)) if ":" in x]
        if len(taken) >= 7:
            many.append(f"{name}: {m.group(1)} {len(taken)}")
        for group in sets:
            groups[group] += set(group) <= set(taken)
    for m in re.finditer(r"requires (?:\w+ )?\{(.*?)\}\n", text, re.S):
        for fact in m.group(1).split(" × "):
            facts[re.sub(r"[()]", "", " ".join(fact.split()))] += 1
print(f"{len(many):5}  functions with 7 parameters or more")
if listed:
    print("\n".join("          " + m for m in many))
for group, n in groups.items():
    print(f"{n:5}  functions that take {', '.join(group)}")
often = [(f, n) for f, n in facts.most_common() if n >= 3]
print(f"{len(often):5}  facts that stand in three `requires` or more, {sum(n for _, n in often)} times in all")
if listed:
    print("\n".join(f"          {n} {f}" for f, n in often))
print("6 buffers")
count("a struct's array with a length beside it", r"^\s*pub (bytes|length): (\[u8; \d+\]|usize),")
print("8 proofs")
print(f"{sum(len(re.findall(r'^pub ', s, re.M)) for _, s in answers):5}  answers, in {len(answers)} files of {sum(s.count(chr(10)) for _, s in answers)} lines")
repeats = 0
for _, text in answers:
    lets = collections.Counter(l.strip() for l in text.split("\n") if l.strip().startswith("let ") and len(l.strip()) > 60)
    repeats += sum(n for n in lets.values() if n >= 3)
print(f"{repeats:5}  `let`s of more than 60 characters that stand three times or more in one file")
count("imports from the older names of libraries", r"^use (mathlib|Prim\.Native|lib\.|native\.Mathlib|borrow\.)", answers)
