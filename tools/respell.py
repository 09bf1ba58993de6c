#!/usr/bin/env python3
"""Brings the repository's own names to one spelling: words in snake case, types in camel case.

usage: python3 tools/respell.py    at the top, once, after the kit's own script for older repositories

Definitions, lemmas, fields and variables of crates/*/specs and crates/*/proofs, and the clauses that cite them, are
turned; names of the library, functions of src/, strings, inputs and outputs keep theirs. A name that the prover makes
keeps the dashes between its parts. Says which names it turned, and which of them fall together.
"""
import os
import re
import sys

WORD = r"[^\s(){};,.@\"⟨⟩⟦⟧`\[\]:∷→λ∀∃≡≢≤<×⊎=*/%^|&∙↔≃⊥←↦⌜⌝·]+"
PATH = re.compile(r"%s(?:\.%s)*" % (WORD, WORD))
OWN = set(os.listdir("crates"))
# what the prover puts before or after a name of the source
MADE = ["slice-bounds", "offset-bounds", "overflow-add", "overflow-sub", "overflow-mul", "overflow-shl", "overflow-shr",
        "overflow-cast", "overflow-step", "nonzero-div", "nonzero-rem", "in-ok", "in-err", "in-default", "type-inv",
        "copy-from-slice", "split-at-mut", "split-at", "invariant-of", "is-some", "is-none", "is-ok", "is-err", "from-residual",
        "as-slice", "first-mut", "split-first-mut", "split-first", "get-mut", "is-empty", "to-be-bytes", "is-multiple-of"]
# names of an older library inside names of this repository
OLD = [("getD-", "get_or_"), ("le-leb", "le_nat_le"), ("lt-ltb", "lt_nat_lt"), ("le-ltb", "le_nat_lt")]
KEEP = {"ℕ-discrete"}


def files():
    for folder, dirs, names in os.walk("crates"):
        dirs[:] = sorted(d for d in dirs if d != "out")
        for f in sorted(names):
            if f.endswith((".antt", ".rt", ".edit")):
                yield os.path.join(folder, f)


def read(p):
    with open(p, encoding="utf-8") as f:
        return f.read()


def turned(t):
    """The spelling of one word."""
    if t in KEEP:
        return t
    for old, new in OLD:
        if t.startswith(old) or t == old:
            t = new + t[len(old):]
    tail = re.search(r"'*$", t).group(0)
    body = t[:len(t) - len(tail)]
    # the kit's script may have turned the dash of a type to an underscore
    parts = re.split("[-_]" if re.match(r"[A-Z][a-z]+_", body) else "-", body)
    if not all(parts):
        return t
    if re.match(r"[A-Z]", body):
        # one capital is a variable, and the name is a lemma's
        if len(parts[0]) == 1:
            return "_".join(parts) + tail
        return "".join(x[:1].upper() + x[1:] for x in parts) + tail
    out = []
    for x in parts:
        y = re.sub(r"(?<=[a-z0-9])([A-Z])(?=[a-z]|$)", lambda m: "_" + m.group(1).lower(), x)
        out.append(y)
    return "_".join(out) + tail


def made(t, source):
    """The spelling of a name that the prover makes from names of the source."""
    for w in MADE:
        t = re.sub(r"(?<![\w])%s(?![\w])" % re.escape(w), w.replace("-", "_"), t)
    for w in source:
        if w in t:
            t = re.sub(r"(?<![\w])%s(?![\w])" % re.escape(w), w.replace("-", "_"), t)
    return t


def odd(t):
    return bool(re.search(r"[\w']-[\w]", t) or re.match(r"[a-z]\w*[A-Z]|[A-Z][a-z]+_[a-z]", t))


def split_comment(line, mark):
    """The code and the comment of a line."""
    if mark == "--":
        m = re.search(r"(^|(?<=\s))--(\s|$)", line)
    else:
        m = re.search(r"//", line)
    return (line[:m.start()], line[m.start():]) if m else (line, "")


def main():
    texts = {p: read(p) for p in files()}
    # names of the source
    source = set()
    for p, t in texts.items():
        if p.endswith(".rt"):
            code = re.sub(r"//.*", "", t)
            source |= set(re.findall(r"\b[a-z][a-z0-9]*(?:_[a-z0-9]+)+\b", code))
    source = sorted((w.replace("_", "-") for w in source), key=len, reverse=True)
    # names defined here
    own = set()
    field = re.compile(r"^\s*(?:abbrev |unfoldable |pub |ruleset |record |data |private )*((?:%s )+): (?!goal\.)" % WORD)
    for p, t in texts.items():
        if not p.endswith(".antt"):
            continue
        for line in t.split("\n"):
            code = split_comment(line, "--")[0]
            m = field.match(code)
            if m and not code.lstrip().startswith("let "):
                own |= set(m.group(1).split()) - {"pub", "abbrev", "unfoldable"}
            m = re.match(r"^\s*(?:pub )?(?:record|data|ruleset) (%s)" % WORD, code)
            if m:
                own.add(m.group(1))
            for m in re.finditer(r"record \{ ?((?:%s : [^;}]*;? ?)+)\}" % WORD, code):
                own |= set(re.findall(r"(?:^|; )(%s) :" % WORD, m.group(1)))
    names = {}
    for p, t in sorted(texts.items()):
        library, modules = set(), set()
        for m in re.finditer(r"use ([^;{\n]*?)(?:\.\{([^}]*)\}| as (\S+?))(?:;|\s|$)", t):
            path = m.group(1).strip()
            parts = path.split(".")
            ours = parts[0] == "Rattle" and len(parts) > 1 and parts[1] in OWN
            if not ours and m.group(2):
                for x in m.group(2).split(","):
                    x = x.strip()
                    library.add(x.split(" as ")[-1].strip())
                    library.add(x.split(" as ")[0].strip())
            if not ours and m.group(3):
                modules.add(m.group(3))
        generated = set(re.findall(r"(%s) : goal\." % WORD, t))
        for m in re.finditer(r"\.(?:Goals|Given)\.\{([^}]*)\}", t):
            generated |= {x.strip() for x in m.group(1).split(",")}

        def word(x, under, first):
            if not odd(x):
                return x
            if under and first:
                return made(x, source)
            if x in generated:
                return made(x, source)
            if x in library and not under:
                return x
            if x in own:
                return turned(x)
            if under:
                if x.replace("-", "_") in {w.replace("-", "_") for w in source}:
                    return x.replace("-", "_")
                return made(x, source)
            return turned(x)

        def path(m):
            parts = m.group(0).split(".")
            if len(parts) > 1 and parts[0] in modules:
                return m.group(0)
            if parts[0] in ("Rattle", "native", "borrow", "mathlib", "lib"):
                return m.group(0)
            under = len(parts) > 1 and parts[0] in ("c", "l", "w", "goal", "v'") and p.endswith(".antt") and "/proofs/" in p
            out = [word(parts[0], False, False)]
            for i, x in enumerate(parts[1:]):
                out.append(word(x, under, i == 0 or parts[0] in ("goal", "w")))
            for a, b in zip(parts, out):
                if a != b:
                    names.setdefault(b, set()).add(a)
            return ".".join(out)

        lines = []
        for line in t.split("\n"):
            if p.endswith(".edit"):
                if line.startswith("file:"):
                    where = line
                if line.startswith(("old:", "new:")) and "specs/" in where:
                    line = line[:5] + PATH.sub(path, line[5:])
                lines.append(line)
                continue
            code, comment = split_comment(line, "--" if p.endswith(".antt") else "//")
            pieces = re.split(r'("(?:[^"\\]|\\.)*")', code)
            code = "".join(x if i % 2 else PATH.sub(path, x) for i, x in enumerate(pieces))
            comment = PATH.sub(lambda m: ".".join(turned(x) if x in own and odd(x) else x for x in m.group(0).split(".")), comment)
            lines.append(code + comment)
        new = "\n".join(lines)
        if new != t:
            with open(p, "w", encoding="utf-8") as f:
                f.write(new)
    ours = {turned(x) for x in own}
    pages = ["README.md"] + sorted(os.path.join("docs", f) for f in os.listdir("docs") if f.endswith(".md"))
    for p in pages:
        t = read(p)
        new = re.sub(r"`[^`\n]*`", lambda m: PATH.sub(lambda n: ".".join(turned(x) if odd(x) and turned(x) in ours else x for x in n.group(0).split(".")), m.group(0)), t)
        if new != t:
            with open(p, "w", encoding="utf-8") as f:
                f.write(new)
    for b in sorted(names):
        olds = names[b] - {b}
        note = ""
        if len(olds) > 1 or b in own:
            note = "   falls together"
        print("%s -> %s%s" % (", ".join(sorted(olds)), b, note))


if __name__ == "__main__":
    sys.exit(main())
