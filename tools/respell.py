#!/usr/bin/env python3
"""Spells this repository's own definitions, lemmas, fields and variables as today's Rattle does.

usage: python3 tools/respell.py      at the top of the repository, once, after port.py

A type, or a fact spelled as a type, is in upper camel case (At-offered-level becomes AtOfferedLevel); every other name is in
snake case (level-fits becomes level_fits), in the pages of docs/ and README.md too. Names of the library and names that Rattle
makes keep theirs. A line 'look:' names a word that falls together with another one of its file.
"""
import os
import re
import sys

NAME = r"[A-Za-z_0-9ℕ'₁₂]+(?:-[A-Za-z_0-9ℕ'₁₂*]+)+"
TOKEN = re.compile(r"(?<![\w\-'◌′])(" + NAME + r")(?![\w\-'◌′])")
USE = re.compile(r"^\s*(?:ghost )?use\s+([\w.'+-]+?)\.\{([^}]*)\}", re.M)
MADE = re.compile(r"^(returns|loop|invariant|decreases|overflow|bounds|if|then|else|prove|nonzero|offset|slice|in|offset_bounds)-")


def files(top):
    for folder, dirs, names in os.walk(os.path.join(top, "crates")):
        dirs[:] = sorted(d for d in dirs if d != "out")
        for n in sorted(names):
            if n.endswith((".rt", ".antt")):
                yield os.path.join(folder, n)


def imported(part):
    """The names of an import list, as (name, alias or None)."""
    for item in part.split(","):
        words = item.split()
        if words:
            yield words[0], (words[2] if len(words) == 3 and words[1] == "as" else None)


def own_module(path, crates):
    """Whether the module is a file of this repository, and no module that Rattle makes."""
    parts = path.split(".")
    if len(parts) < 4 or parts[0] != "Rattle" or parts[1] not in crates or parts[2] not in ("specs", "proofs"):
        return False
    return os.path.exists(os.path.join("crates", parts[1], parts[2], *parts[3:]) + ".antt")


# where the plain spelling is a type of the sources already
INSTEAD = {"Task-figures": "FiguresOfTask", "Job-call": "CallOfJob"}


def spelled(name):
    if name in INSTEAD:
        return INSTEAD[name]
    if name[0].isupper():
        return "".join(p[0].upper() + p[1:] for p in name.split("-"))
    return name.replace("-", "_")


def gather(texts, crates):
    """Names that are not the repository's, fields of its records, and all other names with a dash."""
    foreign, fields, others, declared = set(), set(), set(), set()
    for path, text in texts.items():
        for module, part in USE.findall(text):
            for name, alias in imported(part):
                if not own_module(module, crates):
                    foreign.add(name)
        if not path.endswith(".antt"):
            continue
        for line in text.split("\n"):
            code = line.split("--")[0]
            answer = re.match(r"^\s*(?:abbrev )?(?:pub )?(\S+)\s*:\s*goal\.\S+\s*$", code)
            if answer:
                foreign.add(answer.group(1))
            else:
                sign = re.match(r"^\s*(?:abbrev |unfoldable |record |data )*(?:pub )?(?:record |data )?(" + NAME + r")\s*(?::|\(|\{|$)", code)
                if sign:
                    declared.add(sign.group(1))
            field = re.match(r"^\s+pub\s+(\S+(?: \S+)*)\s+:\s", code)
            if field:
                fields.update(field.group(1).split())
            for part in re.findall(r"record \{([^{}]*)\}", code):
                fields.update(m for m in re.findall(r"(?:^|;)\s*(\S+)\s+[:=]\s", part))
            for t in TOKEN.finditer(code):
                if t.start() == 0 or code[t.start() - 1] != ".":
                    others.add(t.group(1))
    fields = {f for f in fields if re.fullmatch(NAME, f)}
    return foreign, fields, declared, others


def respell(text, renamed, fields, rust):
    def word(m):
        name = m.group(1)
        before = text[m.start() - 1] if m.start() else " "
        if before == ".":
            inside = text[: m.start()].rsplit("\n", 1)[-1]
            if re.match(r"^\s*(ghost )?use ", inside):
                return name
            return spelled(name) if name in fields and name in renamed else name
        return spelled(name) if name in renamed else name

    if not rust:
        return TOKEN.sub(word, text)
    out, at = [], 0
    for m in re.finditer(r'b?"(?:\\.|[^"\\])*"', text):
        head = text[at : m.start()]
        out.append(respell(head, renamed, fields, False))
        out.append(m.group(0))
        at = m.end()
    out.append(respell(text[at:], renamed, fields, False))
    return "".join(out)


def hidden(text):
    """Names of parameters and variables in a source file, which hide a word of their name in a clause."""
    code = "\n".join(l for l in text.split("\n") if not re.match(r"\s*(ghost use|//)", l))
    names = set(re.findall(r"[(,\n]\s*(?:mut )?(\w+): [&A-Z\[u(bi]", code))
    return names | set(re.findall(r"\blet (?:mut )?(\w+)\b", code)) | set(re.findall(r"\bfor (\w+) in", code))


def main():
    top = os.getcwd()
    crates = set(os.listdir("crates"))
    texts = {os.path.relpath(p, top): open(p, encoding="utf-8").read() for p in files(top)}
    foreign, fields, declared, others = gather(texts, crates)
    renamed = {n for n in declared | others | fields if n not in foreign and (n in declared or n in fields or not MADE.match(n))}
    if "-v" in sys.argv:
        print("renamed:", " ".join(sorted(renamed)))
        print("kept:", " ".join(sorted((others | fields) - renamed)))
    standing = {p: set(re.findall(r"(?<![\w.-])[A-Za-z_][\w']*(?![\w-])", re.sub(r"//.*|--.*", "", t))) for p, t in texts.items()}
    for path, text in texts.items():
        new = respell(text, renamed, fields, path.endswith(".rt"))
        for n in sorted(renamed):
            if spelled(n) in standing[path] and re.search(r"(?<![\w.-])" + re.escape(n) + r"(?![\w'-])", text):
                if path.endswith(".antt") or spelled(n) in hidden(text):
                    print("look: in %s %s becomes %s, which stands there already" % (path, n, spelled(n)))
        if new != text and "-n" not in sys.argv:
            open(path, "w", encoding="utf-8").write(new)
    for path in ["README.md"] + sorted("docs/" + d for d in os.listdir("docs") if d.endswith(".md")):
        if path.startswith("docs/PORT") or not os.path.exists(path):
            continue
        text = open(path, encoding="utf-8").read()
        new = re.sub(r"`[^`\n]+`", lambda m: TOKEN.sub(lambda t: spelled(t.group(1)) if t.group(1) in renamed else t.group(1), m.group(0)), text)
        if new != text and "-n" not in sys.argv:
            open(path, "w", encoding="utf-8").write(new)


main()
