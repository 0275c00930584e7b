#!/usr/bin/env python3
"""Lists the places in crates/*/src where an older form may stand, by point of docs/DESIGN-PASS.md.

usage: places.py [-q] [COMMIT]     at the top of the repository; without COMMIT the files as they are; -q prints counts alone
"""
import collections, os, re, subprocess, sys

quiet = "-q" in sys.argv
revs = [a for a in sys.argv[1:] if a != "-q"]

def files():
    if revs:
        names = subprocess.run(["git", "ls-tree", "-r", "--name-only", revs[0], "crates"], capture_output=True, text=True, check=True).stdout.split()
        for n in names:
            if re.fullmatch(r"crates/\w+/src/.*\.rt", n):
                yield n, subprocess.run(["git", "show", f"{revs[0]}:{n}"], capture_output=True, text=True, check=True).stdout
    else:
        for top, _, fs in sorted(os.walk("crates")):
            for f in sorted(fs):
                n = os.path.join(top, f)
                if re.fullmatch(r"crates/\w+/src/.*\.rt", n):
                    yield n, open(n, encoding="utf-8").read()

SRC = list(files())
FN = re.compile(r"\bfn (\w+)(?:<[^(]*>)?\(([^)]*)\)(?: -> ([^\n{]+))?((?:\n\s+(?:requires|ensures)[^\n]*)*)")

def functions():
    for n, s in SRC:
        for m in FN.finditer(s):
            yield n, s[: m.start()].count("\n") + 1, m.group(1), " ".join(m.group(2).split()), (m.group(3) or "").strip(), re.findall(r"(requires|ensures)(?: \w+)? \{ (.*) \}", m.group(4) or "")

def grep(pattern):
    for n, s in SRC:
        for i, line in enumerate(s.split("\n"), 1):
            if re.search(pattern, line) and not line.lstrip().startswith("//"):
                yield f"{n}:{i}: {line.strip()}"

def params(text):
    out = []
    for p in re.split(r",\s*(?![^<\[(]*[>\])])", text):
        p = p.strip()
        if ":" in p:
            a, b = p.split(":", 1)
            out.append((a.strip().removeprefix("mut ").strip(), " ".join(b.split())))
    return out

def say(title, lines):
    lines = list(lines)
    print(f"{len(lines):4}  {title}")
    if not quiet:
        for l in lines:
            print("        " + l)

# 1
def flat(text):
    return " ".join(re.sub(r"//[^\n]*", "", text).split())

enums = [f"{n}: {m.group(1)} {{ {flat(m.group(2))} }}" for n, s in SRC for m in re.finditer(r"\benum (\w+)(?:<[^{]*>)? \{(.*?)\n\}", s, re.S)]
say("1 enums, to be read for the shape of Option or Result", enums)
say("1 functions that answer a bare number or a tuple of numbers", (f"{n}:{l}: {f} -> {r}" for n, l, f, _, r, _ in functions() if re.fullmatch(r"u8|u64|usize|\((u8|u64|usize)(, (u8|u64|usize))+\)", r)))
say("1 functions that answer bool", (f"{n}:{l}: {f}" for n, l, f, _, r, _ in functions() if r == "bool"))
# 2
bodies = collections.defaultdict(list)
for n, s in SRC:
    for m in re.finditer(r"\n( *)(?:pub(?:\([a-z]+\))? )?fn (\w+).*?\n\1\}", s, re.S):
        body = re.sub(r"//[^\n]*", "", m.group(0))
        body = re.sub(r"\s*(requires|ensures)[^\n]*", "", body)
        key = re.sub(r"\b(u8|u16|u32|u64|usize|\d[\d_]*|b?\"[^\"]*\"|b'.')", "_", re.sub(r"\b[A-Z]\w*", "T", re.sub(rf"\b{m.group(2)}\b", "f", body)))
        bodies[" ".join(key.split())].append(f"{n}: {m.group(2)}")
say("2 functions whose body is another's but for names of types, numbers and texts", ("; ".join(v) for v in bodies.values() if len(v) > 1))
names = collections.defaultdict(list)
for n, l, f, *_ in functions():
    names[f].append(n)
say("2 names of functions that stand in two or more files", (f"{f}: {', '.join(v)}" for f, v in sorted(names.items()) if len(v) > 1))
# 3
say("3 loops over numbers", grep(r"\bfor \w+ in \(?[\w.()]*\s*\.\."))
say("3 while and loop", grep(r"^\s*(while|loop)\b"))
say("3 counters advanced by hand in a loop", grep(r"\b(\w+) (\+= 1;|= \1\.saturating_add\(1\);)"))
# 4
say("4 conversions and texts by hand: functions x_of, x_named, x_text, name", (f"{n}:{l}: {f}" for n, l, f, *_ in functions() if re.search(r"(_of|_named|_text)$|^(told|given|done|on_line|byte|letter_code)$", f)))
say("4 impls of Clone, Copy, PartialEq, Eq, PartialOrd, Ord, Debug by hand", grep(r"^impl.* (Clone|Copy|PartialEq|Eq|PartialOrd|Ord|Debug) for "))
say("4 match on a Result or Option that only hands on", grep(r"^\s*(Err\((\w+)\) => Err\(\2\)|None => None|Some\((\w+)\) => Some\(\3\)|Ok\((\w+)\) => Ok\(\4\)),$"))
# 5
clauses = collections.defaultdict(set)
for n, l, f, p, r, cs in functions():
    for k, c in cs:
        if k == "requires":
            clauses[c].add(f"{n}:{l}")
say("5 requires clauses that stand in three or more functions", (f"{c}   [{len(v)}]" for c, v in clauses.items() if len(v) > 2))
groups = collections.defaultdict(set)
for n, l, f, p, *_ in functions():
    ps = params(p)
    for i in range(len(ps)):
        for j in range(i + 2, len(ps) + 1):
            groups[tuple(ps[i:j])].add(f"{n}:{l}")
big = {g: v for g, v in groups.items() if len(v) > 2}
say("5 parameters that stand together in three or more functions", (f"{', '.join(a + ': ' + b for a, b in g)}   [{len(v)}]" for g, v in sorted(big.items()) if not any(set(g) < set(h) and big[h] == v for h in big)))
# 6
say("6 arrays and the counts beside them in types", grep(r"^\s*(pub(\([a-z]+\))? )?\w+: (\[[^\]]+; \w+\]|usize),"))
say("6 arrays made in functions", grep(r"let mut \w+(: [^=]+)? = \[.*; \w+\];"))
# 7
say("7 match on which step, word, rule, kind or call", grep(r"\bmatch (\*?self|\(?rule|\(?self\.|board\.rule|board\.aim|word|call|question|\*?step|name|started\.kind|open\()"))
