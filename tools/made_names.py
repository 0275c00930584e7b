#!/usr/bin/env python3
"""Gives names that Rattle makes their spelling of today in the proof files of functions: a name of the sources keeps its underscores.

usage: made_names.py CRATE..      at the top of the repository
"""
import os, re, sys
TOKEN = re.compile(r"(?<![\w\-'◌])([A-Za-z_0-9'+]+(?:-[A-Za-z_0-9'+]+)+)(?![\w\-'◌])")
WORDS = ["invariant_of", "overflow_add", "overflow_sub", "overflow_mul", "overflow_cast", "overflow_shl", "overflow_step", "nonzero_div", "nonzero_rem", "offset_bounds", "slice_bounds", "in_ok", "in_err", "in_default", "from_residual", "range_with_len", "copy_from_slice", "type_inv", "is_ascii_digit"]
FIXED = set(WORDS)

def idents(path):
    try:
        s = open(path, encoding="utf-8").read()
    except OSError:
        return set()
    s = re.sub(r"//.*", "", s)
    return {w for w in re.findall(r"[A-Za-z]\w*", s) if "_" in w.strip("_")}

def respell(tok, ids):
    parts = tok.split("-")
    out, i = [], 0
    while i < len(parts):
        for j in range(len(parts), i + 1, -1):
            cand = "_".join(parts[i:j])
            if cand in ids or cand in FIXED:
                out.append(cand); i = j; break
        else:
            out.append(parts[i]); i += 1
    return "-".join(out)

def foreign(text):
    names = set()
    for m, part in re.findall(r"^\s*use\s+([\w.'+-]+?)\.\{([^}]*)\}", text, re.M):
        if not re.search(r"\.(Goals|Given|Lts)(\.|$)|\.proofs\.[a-z+]", m) or re.search(r"\.proofs\.(Common|Math|lemmas)", m):
            names |= {w.split()[0] for w in part.split(",") if w.split()}
    return names

for crate in sys.argv[1:]:
    top = "crates/%s/proofs" % crate
    for d, ds, fs in os.walk(top):
        if d == top: continue
        rel = os.path.relpath(d, top).split(os.sep)
        ids = set()
        for k in range(len(rel), 0, -1):
            p = "crates/%s/src/%s.rt" % (crate, "/".join(rel[:k]))
            if os.path.exists(p):
                ids = idents(p)
                below = p[:-3]
                if os.path.isdir(below):
                    for q in os.listdir(below):
                        ids |= idents(os.path.join(below, q))
                break
        if any(r[0].isupper() for r in rel):
            for e, es, qs in os.walk("crates/%s/src" % crate):
                for q in qs:
                    ids |= idents(os.path.join(e, q))
        else:
            for q in ("lib", "main"):
                ids |= idents("crates/%s/src/%s.rt" % (crate, q))
        for f in fs:
            if not f.endswith(".antt"): continue
            p = os.path.join(d, f)
            s = open(p, encoding="utf-8").read()
            keep = foreign(s)
            out = []
            for line in s.split("\n"):
                if re.match(r"^\s*use Rattle\.std|^\s*use (borrow|base|Prim|lib|mathlib|native)", line):
                    out.append(line); continue
                out.append(TOKEN.sub(lambda m: m.group(1) if m.group(1) in keep else respell(m.group(1), ids), line))
            new = "\n".join(out)
            if new != s:
                open(p, "w", encoding="utf-8").write(new)
