#!/usr/bin/env python3
"""Respells the repository's own definitions, lemmas, fields and constructors: words in snake case, types in camel case.

Run once, at the top, after the kit's port.py. What Rattle generates (steps, goals) and what std declares is left alone.
"""
import collections
import glob
import os
import re
import sys

WORD = r"[^\s(){}\[\];,.«»⟦⟧:|`\"/]+"
GOAL_FILES = ("Answers.antt", "Invariants.antt", "Choices.antt")


def snake(name):
    name = name.replace("getD", "get_or").replace("′", "'")
    name = re.sub(r"(?<=[a-z0-9])([A-Z])", lambda m: "_" + m.group(1).lower(), name)
    return name.replace("-", "_")


def camel(name):
    return "".join(p[:1].upper() + p[1:] for p in name.replace("′", "'").split("-"))


def odd(name):
    return bool(re.search(r"-|′|^[a-z].*[A-Z]", name)) and bool(re.match(r"[A-Za-z]", name)) and "◌" not in name


def antt_files():
    return sorted(glob.glob("crates/*/specs/**/*.antt", recursive=True) + glob.glob("crates/*/proofs/**/*.antt", recursive=True))


def declared():
    """Names that the repository declares, and among them the fields and constructors, which stand behind a dot too."""
    names, fields = {}, set()
    for path in antt_files():
        inside = None
        for line in open(path, encoding="utf-8"):
            if re.match(r"\s*(use|pub mod|mod|module|--|let|open)\b", line):
                continue
            head = re.match(r"(\s*)((?:(?:pub|abbrev|unfoldable|record|data)\s+)*)(" + WORD + r")\s*([({:].*)$", line)
            if re.match(r"\S", line):
                inside = "block" if re.search(r"\b(record|data)\b", line) else None
            if not head or (" : " not in line and not line.rstrip().endswith(":")):
                continue
            if head.group(1) and inside != "block" and not re.match(r"\s*(?:pub\s+)?" + WORD + r" :|\s+(?:abbrev|pub|unfoldable) ", line):
                continue
            name = head.group(3)
            if os.path.basename(path) in GOAL_FILES and "goal." in line:
                continue
            if not odd(name):
                continue
            kind = re.search(r": Type 0\s*(where)?$|→ Type 0\s*(where)?$", line.rstrip())
            names[name] = camel(name) if name[0].isupper() and kind else snake(name[0].lower() + name[1:] if name[0].isupper() else name)
            if inside == "block" and head.group(1):
                fields.add(name)
    return names, fields


def local(text):
    """Names that a file binds by `let` or as a parameter."""
    found = set(re.findall(r"\blet (" + WORD + r")\s*[:=]", text))
    for group in re.findall(r"[({]([^(){}:]+) : ", text):
        found.update(group.split())
    return {name: snake(name) for name in found if odd(name) and name[0].islower() and not name.startswith("the-")}


def respelled(text, names, behind_dot):
    def word(match):
        name = match.group(0)
        if name not in names:
            return name
        if text[match.start() - 1 : match.start()] == "." and name not in behind_dot and not re.search(r"[A-Z]", name):
            return name
        return names[name]

    return re.sub(WORD, word, text)


def main():
    names, fields = declared()
    by_new = collections.defaultdict(set)
    for old, new in names.items():
        by_new[new].add(old)
    for new, olds in sorted(by_new.items()):
        # a lemma that would have its function's name
        for old in olds if len(olds) > 1 else ():
            if "-" in old:
                names[old] = new + "_lem"
    standing = set()
    for path in antt_files():
        standing.update(re.findall(WORD, open(path, encoding="utf-8").read()))
    for old, new in sorted(names.items()):
        if new in standing:
            print("stands already:", old, new)
    documents = glob.glob("docs/*.md") + glob.glob("README.md")
    sources = glob.glob("crates/*/src/**/*.rt", recursive=True) + glob.glob("crates/*/must-fail/*.edit")
    for path in antt_files() + sorted(sources) + sorted(documents):
        text = open(path, encoding="utf-8").read()
        here = dict(names)
        if path.endswith(".antt"):
            own = local(text)
            for old, new in own.items():
                if old not in here:
                    here[old] = new
                    if re.search(r"(?<!" + "[\\w'-]" + r")" + re.escape(new) + r"(?![\w'-])", text):
                        print("already there:", new, path)
        if path.endswith(".md"):
            here = {old: new for old, new in here.items() if "-" not in old}
        new = respelled(text, here, fields)
        if new != text:
            open(path, "w", encoding="utf-8").write(new)


if __name__ == "__main__":
    sys.exit(main())
