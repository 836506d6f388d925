#!/usr/bin/env python3
"""Spells the repository's own definitions and lemmas as the kit does: words in snake case, types in camel case.

usage: tools/snake_names.py          at the top of the repository, once, after the kit's port.py: rewrites crates/*/ in place
       tools/snake_names.py --try    writes nothing, and says what it would stop at
       tools/snake_names.py --force  writes though names fall together

It renames each name with a hyphen that a file of specs/ or proofs/ declares, wherever proofs, definitions and clauses
say it. Names that the checker makes (of goals, loops, branches) stay, and so do comments, strings and the code itself.
It stops without writing where two names would fall together in a file; a part of a module's path is no such name.
"""
import os
import re
import sys

DECLARED = re.compile(r"(?:abbrev |unfoldable |pub |\s)*([^\s(){}\[\].,;:]*-[^\s(){}\[\].,;:]*)\s*:(?!:)\s*(\S*)")
BLOCK = re.compile(r"\s*(?:pub )?(record|data|module)\b.*\bwhere\s*$")
BINDERS = re.compile(r"[({]([^\s(){}\[\].,;:]+(?: [^\s(){}\[\].,;:]+)*) : ")
TOKEN = re.compile(r"[^\s(){}\[\].,;:«»]+")


def files(top):
    for folder, dirs, names in os.walk(os.path.join(top, "crates")):
        dirs[:] = sorted(d for d in dirs if d != "out")
        for name in sorted(names):
            if name.endswith((".antt", ".rt")):
                yield os.path.join(folder, name)


def respelled(name):
    if name[0].isupper():
        return "".join(part[:1].upper() + part[1:] for part in name.split("-"))
    return name.replace("-", "_")


def ghost_spans(text):
    """The parts of a .rt file that are written in antt: ghost imports, clauses, ghost members and ghost fields."""
    spans = []
    for m in re.finditer(r"^\s*ghost use [^;]*;", text, re.M):
        spans.append(m.span())
    for m in re.finditer(r"\b(?:requires|ensures|invariant|ghost(?! use))\b[^{};\n]*\{", text):
        depth, at = 1, m.end()
        while depth:
            depth += {"{": 1, "}": -1}.get(text[at], 0)
            at += 1
        spans.append((m.end(), at))
    apart = []
    for s, e in sorted(spans):
        if not apart or s >= apart[-1][1]:
            apart.append((s, e))
    return apart


def code_spans(path, text):
    if path.endswith(".rt"):
        return ghost_spans(text)
    spans, at = [], 0
    for line in text.splitlines(keepends=True):
        comment = re.search(r"(?:^|\s)--(?:\s|$)", line)
        spans.append((at, at + (comment.start() if comment else len(line))))
        at += len(line)
    return spans


def in_path(text, token):
    """Whether a word is a folder or a module in the path of a `use` line."""
    line = text[text.rfind("\n", 0, token.start()) + 1:token.start()]
    return re.match(r"(?:pub |ghost )*use [\w.+]*$", line) is not None


def main():
    texts = {p: open(p, encoding="utf-8").read() for p in files(".")}
    names, fields, made = {}, set(), set()
    for path, text in texts.items():
        if not path.endswith(".antt"):
            continue
        for m in BINDERS.finditer(text):
            for word in m.group(1).split():
                if re.search(r"[a-z]-[a-z]", word):
                    names[word] = respelled(word)
        block = None
        for line in text.splitlines():
            opening = BLOCK.match(line)
            if opening:
                block = opening.group(1)
            m = DECLARED.match(line)
            if not m:
                continue
            if m.group(2).startswith("goal."):
                made.add(m.group(1))
            else:
                names[m.group(1)] = respelled(m.group(1))
            if block == "record" and line.startswith(" "):
                fields.add(m.group(1))
    both = made & set(names)
    out, dotted, clashes = {}, set(), []
    for path, text in texts.items():
        spans = code_spans(path, text)
        before = {t.group() for s, e in spans for t in TOKEN.finditer(text, s, e) if not in_path(text, t)}
        said = set()
        parts, at = [], 0
        for s, e in spans:
            for t in TOKEN.finditer(text, s, e):
                word = t.group()
                if word not in names or (word in both and ("goal." in text and f"pub {word} : goal." in text)):
                    continue
                if t.start() and text[t.start() - 1] == "." and word not in fields:
                    dotted.add((path, word, text[max(0, t.start() - 30):t.end() + 5].replace("\n", " ")))
                    if not re.search(r"[A-Z]\w*\.$", text[:t.start()]):
                        continue
                said.add(word)
                parts += [text[at:t.start()], names[word]]
                at = t.end()
        parts.append(text[at:])
        for word in said:
            if names[word] in before:
                clashes.append((path, word, names[word]))
        out[path] = "".join(parts)
    for line in sorted(dotted):
        print("behind a dot:", *line)
    for line in sorted(both):
        print("also a goal:", line)
    for line in sorted(clashes):
        print("falls together:", *line)
    if clashes and "--force" not in sys.argv:
        return 1
    if "--try" in sys.argv:
        return 0
    for path, text in out.items():
        if text != texts[path]:
            with open(path, "w", encoding="utf-8") as f:
                f.write(text)
    print(f"{len(names)} names")
    return 0


if __name__ == "__main__":
    raise SystemExit(main())
