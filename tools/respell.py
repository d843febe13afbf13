#!/usr/bin/env python3
"""Respells the repository's own definitions and lemmas: words in snake case, types in camel case.

Names are those declared in crates/*/specs/*.antt and crates/*/proofs/*.antt. Names of src/, strings and
comments keep their spelling. Run once, at the top, after the toolchain's own port script.
"""
import collections
import glob
import re
import sys

TOKEN = re.compile(r"[A-Za-z_][\w']*(?:-[\w']+)*")
DECLARED = re.compile(r"^\s*(?:abbrev |unfoldable )*(?:pub )?(?:record |data )?((?:[A-Za-z_][\w'-]* )*[A-Za-z_][\w'-]*)(?= *(?::|\(|\{))")
SKIP = re.compile(r"^\s*(?:use|pub use|mod|pub mod|let|--)\b|^\s*--")


def declared(path):
    """The hyphened names that a file declares."""
    names = set()
    for line in open(path, encoding="utf-8"):
        if SKIP.match(line) or ":" not in line:
            continue
        found = DECLARED.match(line)
        if found:
            names.update(n for n in found.group(1).split() if "-" in n)
    return names


def respelt(name):
    parts = name.split("-")
    if name[0].isupper():
        return "".join(p[0].upper() + p[1:] for p in parts)
    return "_".join(parts)


def turn(text, renamed):
    return TOKEN.sub(lambda m: renamed.get(m[0], m[0]), text)


def turn_proof(text, renamed):
    """Each line but for its comment."""
    lines = []
    for line in text.split("\n"):
        at = re.search(r"(?:^|(?<=\s))--(?=\s|$)", line)
        cut = at.start() if at else len(line)
        lines.append(turn(line[:cut], renamed) + line[cut:])
    return "\n".join(lines)


def ghost_parts(text):
    """The places of a source file that clauses, ghost members and ghost imports take."""
    parts = [m.span() for m in re.finditer(r"^ghost use [^;]*;", text, re.M)]
    for m in re.finditer(r"\b(?:requires|ensures|decreases)\b[^{};]*\{|\bghost \w+(?: \w+)?\s*[:=]\s*\{", text):
        deep, i = 1, m.end()
        while deep and i < len(text):
            deep += {"{": 1, "}": -1}.get(text[i], 0)
            i += 1
        parts.append((m.end(), i))
    return parts


def turn_source(text, renamed):
    out, at = [], 0
    for start, end in sorted(ghost_parts(text)):
        if start < at:
            continue
        out.append(text[at:start])
        out.append(turn(text[start:end], renamed))
        at = end
    return "".join(out) + text[at:]


def qualified(text, renamed):
    """A respelt name that a function of the file has too is cited by its path."""
    for module, names in re.findall(r"^ghost use ([\w.]+)\.\{([^}]*)\};", text, re.M):
        names = names.split(", ")
        for n in names:
            if n in renamed.values() and re.search(rf"\bfn {n}\b", text):
                kept = [k for k in names if re.search(rf"\bfn {k}\b", text) is None or k not in renamed.values()]
                line = f"ghost use {module}.{{{', '.join(kept)}}};\n" if kept else ""
                text = re.sub(rf"^ghost use {re.escape(module)}\.\{{[^}}]*\}};\n", lambda m: line, text, flags=re.M)
                out, at = [], 0
                for start, end in sorted(ghost_parts(text)):
                    part = text[start:end]
                    if not text[text.rfind("\n", 0, start) + 1:].startswith("ghost use"):
                        part = re.sub(rf"(?<![\w.']){n}(?![\w'])", f"{module}.{n}", part)
                    out.append(text[at:start] + part)
                    at = end
                text = "".join(out) + text[at:]
    return text


def main():
    names = set()
    for path in glob.glob("crates/*/specs/*.antt") + glob.glob("crates/*/proofs/*.antt"):
        names |= declared(path)
    renamed = {n: respelt(n) for n in names}
    together = [k for k, c in collections.Counter(renamed.values()).items() if c > 1]
    if together:
        sys.exit(f"names that fall together: {together}")
    for path in sorted(glob.glob("crates/**/*.antt", recursive=True) + glob.glob("crates/**/*.rt", recursive=True)):
        old = open(path, encoding="utf-8").read()
        held = set(TOKEN.findall(old))
        for n in sorted(held & names):
            if renamed[n] in held:
                print(f"look: {path}: {renamed[n]} stands beside {n}")
        new = turn_proof(old, renamed) if path.endswith(".antt") else qualified(turn_source(old, renamed), renamed)
        if new != old:
            open(path, "w", encoding="utf-8").write(new)


main()
