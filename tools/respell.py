#!/usr/bin/env python3
"""Spells the names of the repository's own definitions and lemmas in snake case, where they were in camel case or joined by dashes.

usage: python3 tools/respell.py [--look]        at the top, once, behind the kit's port.py

Types and modules keep their capitals; what is written in Rattle (functions, fields, variants, locals) keeps its name, and so does a label that the
check makes (behind tie., reads., lts., kinds.). Of two names that would fall together in one file the one of specs/, or else the definition, takes the
plain name and the other the ending _lem. The crate log, named as a library of the kit, becomes log_line. With --look nothing is written, and the names that fall together are listed."""
import collections
import glob
import os
import re
import sys

NAME = r"[^\s(){}.;,@\"«»:]+"
DECLARED = re.compile(
    r"^(\s*)(?:(?:abbrev|unfoldable|pub|private|infix\w*|let)\s+)*(?:(record|data|ruleset)\s+)?(?:pub\s+)?(" + NAME + r")(?: \{[^{}]*\}| \([^()]*\))* (?::|=)(.*)"
)
WORDS = {"use", "elim", "let", "in", "where", "unfolding", "λ", "|"}
CUT = "\\s(){}.;,@\"«»:!&\\[\\]⌜⌝|?`"
TOKEN = re.compile(f"(?<![^{CUT}])([^{CUT}]+)")
MADE = ("tie", "reads", "lts", "kinds", "goal")


def snake(n):
    n = re.sub(r"([A-Z])(?=[A-Z][a-z])", r"\1_", n)
    n = re.sub(r"(?<=[a-zℕℤ0-9])([A-Z])", lambda m: "_" + m[1].lower(), n)
    n = re.sub(r"(?<=_)([A-Z])(?=[a-z])", lambda m: m[1].lower(), n)
    return n.replace("-", "_").replace("′", "'")


def texts():
    for pat in ("crates/*/specs/**/*.antt", "crates/*/proofs/**/*.antt"):
        for p in sorted(glob.glob(pat, recursive=True)):
            yield p


def sources():
    return sorted(glob.glob("crates/*/src/**/*.rt", recursive=True))


def bare(line):
    return re.sub(r"(?:^|\s)--\s.*", "", line)


def declared():
    found = collections.defaultdict(list)
    for p in texts():
        for line in open(p, encoding="utf-8"):
            m = DECLARED.match(bare(line.rstrip("\n")))
            if m and m[3] not in WORDS:
                found[m[3]].append((p, m[2] or ("def" if m[1] == "" else "inner")))
    return found


def main():
    look = "--look" in sys.argv
    found = declared()
    old = {n for n in found if not n[0].isupper() and n != snake(n) and re.match(r"[A-Za-z→ℤℕ]", n)}
    files = {p: open(p, encoding="utf-8").read() for p in list(texts()) + sources()}
    tokens = {p: set(TOKEN.findall(t)) for p, t in files.items()}
    groups = collections.defaultdict(set)
    for n in old:
        groups[snake(n)].add(n)
    table, notes = {}, []
    for new, names in sorted(groups.items()):
        members = names | {new}
        clash = [p for p in texts() if len(tokens[p] & members) > 1]
        if not clash:
            for n in names:
                table[n] = new
            continue
        rank = lambda n: (not any("/specs/" in p for p, _ in found.get(n, [])), "-" in n, n == new)
        ours = [n for n in members if n in found]
        first = sorted(ours, key=rank)[0]
        free = new not in found and any(new in tokens[p] for p in files)  # a word of a library or of Rattle
        for n in sorted(members):
            if n == first:
                if n != new:
                    table[n] = new
            elif n == new and n not in found:
                notes.append(f"look: {first} becomes {new}, which stands in {[p for p in files if new in tokens[p]][:4]}")
            else:
                table[n] = new + "_lem"
        notes.append(f"together: {sorted(members & set(found))} -> { {n: table.get(n, n) for n in sorted(members & set(found))} } in {clash[:3]}")
    for p in sources():
        own = set(re.findall(r"\b(?:let (?:mut )?|for )(\w+)", files[p])) | set(re.findall(r"[(,]\s*(?:mut )?(\w+): ", files[p]))
        for n in sorted(tokens[p] & set(table)):
            if table[n] in own:
                notes.append(f"look: {p}: {n} becomes {table[n]}, which is a local or a parameter there")
    print("\n".join(notes))
    print(f"respell: {len(table)} names")
    if look:
        return
    with open("/tmp/respell.tsv", "w", encoding="utf-8") as f:
        f.writelines(f"{a}\t{b}\n" for a, b in sorted(table.items()))

    def turn(text, steps=False):
        def one(m):
            w = m[1]
            before = text[max(0, m.start(1) - 12) : m.start(1)]
            if re.search(r"\b(?:%s)\.$" % "|".join(MADE), before):
                return w
            if steps and before.endswith(".") and not re.search(r"[a-z][A-Z]", w):
                return w
            return table.get(w, w)

        return TOKEN.sub(one, text)

    def turn_crate(text):
        text = re.sub(r"\bRattle\.log\.", "Rattle.log_line.", text)
        text = re.sub(r"(?<![\w.:/-])log::", "log_line::", text)
        return text

    for p, t in files.items():
        if p.endswith(".antt"):
            # in a function's proof what stands behind a point is mostly a step that the check names
            u = turn(t, p.endswith("/Proof.antt"))
        else:
            # in Rattle only what stands in a clause or a ghost import
            u = t
            def clause(m):
                return turn(m[0])
            u = re.sub(r"(?m)^ghost use [^;]*;", clause, u)
            u = re.sub(r"(?m)^ *//.*`.*", clause, u)
            u = re.sub(r"\b(?:requires|ensures)\b(?:\s+\w+)?\s*\{(?:[^{}]|\{[^{}]*\})*\}", clause, u)
        u = turn_crate(u)
        if u != t:
            open(p, "w", encoding="utf-8").write(u)
    if os.path.isdir("crates/log"):
        os.rename("crates/log", "crates/log_line")
        t = open("crates.txt", encoding="utf-8").read()
        open("crates.txt", "w", encoding="utf-8").write(re.sub(r"(?m)(^| )log(?=[: \n])", r"\1log_line", t))


if __name__ == "__main__":
    main()
