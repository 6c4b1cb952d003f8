#!/usr/bin/env python3
"""Spells the names that this repository's specs and proofs declare in snake case, as the kit's library is spelled.

usage: python3 tools/respell.py [--table]      at the top of the repository, once, right after port.py

A definition, lemma, field or ruleset whose name has a dash or a capital inside a word (`read-back`, `leAt`) gets underscores (`read_back`, `le_at`);
types and modules keep their capitals. A lemma that would then be called as a definition is gets `_lem` behind its name. Names that Rattle
makes (behind `c.`, `tie.` and the like) stay, as do names in Rust code, strings, inputs and outputs. --table prints the table and changes nothing.
"""
import collections
import os
import re
import sys

DECLARED = re.compile(
    r"^([ ]*)((?:abbrev |unfoldable |pub |record |data |ruleset )*)([^\s(){}:;,.\"]+)((?: *[({][^:\n]*:[^)}\n]*[)}])*) *:(?!=)( .*)?$", re.M
)
RULESET = re.compile(r"^(?:pub )?ruleset ([^\s(){}:;,.\"]+)", re.M)
WORD = re.compile(r'(\.)?([^\s(){}.;,@"«»:|`]+)')
COMMENT = re.compile(r"(?:(?<=\s)|^)--.*$|//.*$", re.M)


def texts(root, endings):
    for folder, dirs, files in os.walk(root):
        dirs[:] = sorted(d for d in dirs if d not in ("out", ".git", "target"))
        for f in sorted(files):
            if f.endswith(endings):
                yield os.path.join(folder, f)


def read(path):
    with open(path, encoding="utf-8") as f:
        return f.read()


def in_snake_case(name):
    words = re.sub(r"(?<=[a-z0-9₀-₉])[A-Z]|(?<=[A-Z])[A-Z](?=[a-z])", lambda m: "_" + m[0].lower(), name)
    return words.replace("-", "_")


def is_other_style(name):
    if "◌" in name or not re.search(r"[A-Za-z]", name):
        return False
    if name[0].isupper():
        return "-" in name
    return bool(re.search(r"[a-z0-9₀-₉][A-Z]|[^\s]-[^\s]", name))


def table():
    declared, fields = collections.defaultdict(list), set()
    for path in texts("crates", ".antt"):
        text = read(path)
        block = None
        for m in DECLARED.finditer(text):
            declared[m[3]].append((m[5] or "").strip())
        for m in RULESET.finditer(text):
            declared[m[1]].append("ruleset")
        # a field is indented below its record
        for line in text.splitlines():
            if re.match(r"^ *(?:pub )?(?:abbrev )?record ", line):
                block = len(line) - len(line.lstrip())
            elif line.strip() and block is not None and len(line) - len(line.lstrip()) <= block:
                block = None
            elif block is not None and (m := re.match(r"^ *(?:pub )?([^\s(){}:;,.\"]+) :", line)):
                fields.add(m[1])
    old = {n for n, types in declared.items() if is_other_style(n) and not all(t.startswith(("tie.", "goal.")) for t in types)}
    new = {n: in_snake_case(n) for n in old}
    # a lemma stands behind a definition of its name: dashes are lemmas' and fields', capitals and what was snake case already may be either
    definitions = {new[n] for n in old if "-" not in n and not n[0].isupper()}
    rows = {}
    for n in old:
        lemma = "-" in n and n not in fields
        rows[n] = new[n] + ("_lem" if lemma and (new[n] in definitions or new[n] in declared or new[n] == "bit_or") else "")
    # a lemma that had its snake case already, where a definition now gets the same name
    for n in definitions & set(declared):
        if not is_other_style(n) and n not in fields:
            rows[n] = n + "_lem"
    return rows, fields, set(declared)


def with_turned(rows, declared, text):
    """The rows, with the names of the text that port.py has respelled in specs and proofs, which it does not in edits and pages."""
    more = {w: in_snake_case(w) for w in {m[2] for m in WORD.finditer(text)} if w not in rows and is_other_style(w)}
    return rows | {w: n for w, n in more.items() if n in declared}


def of_libraries(rows, text, own):
    """The rows without the names that the text imports from a library, which keep their spelling."""
    kept = set()
    for m in re.finditer(r"^ *(?:ghost )?(?:open )?use ([^\s{]+)\{([^}]*)\}", text, re.M):
        steps = m[1].split(".")
        if not (steps[0] == "Rattle" and steps[1] in own):
            kept |= {it.split(" as ")[0].strip() for it in m[2].split(",")}
    return {o: n for o, n in rows.items() if o not in kept} if kept & rows.keys() else rows


def turned(rows, fields, text, prose):
    """The text with its names respelled; in prose only names with a capital inside, and what stands in backticks."""

    def word(m):
        dot, w = m[1] or "", m[2]
        if w not in rows:
            return m[0]
        if prose and not (re.search(r"[a-z][A-Z]", w)):
            return m[0]
        if dot:
            before = re.search(r"([^\s(){};,@\"«»|`]+)$", m.string[: m.start()])
            head = before[1].split(".")[-1] if before else ""
            module = head[:1].isupper() and "." not in m.string[m.start() - len(head) - 1 : m.start() - len(head)] or (before and before[1].startswith("Rattle"))
            if w not in fields and not module:
                return m[0]
        return dot + rows[w]

    return WORD.sub(word, text)


def respell_code(rows, fields, text, mark):
    out, at = [], 0
    for m in COMMENT.finditer(text):
        if not m[0].startswith(mark):
            continue
        out.append(turned(rows, fields, text[at : m.start()], False))
        out.append(respell_prose(rows, fields, m[0]))
        at = m.end()
    out.append(turned(rows, fields, text[at:], False))
    return "".join(out)


def respell_prose(rows, fields, text):
    parts = re.split(r"(`[^`\n]*`)", text)
    return "".join(turned(rows, fields, p, not p.startswith("`")) for p in parts)


def respell_edit(rows, fields, text):
    lines = []
    for line in text.split("\n"):
        if line.startswith(("old:", "new:")):
            lines.append(line[:4] + respell_code(rows, fields, line[4:], "//" if ".rt" in text.split("\n")[1] else "--"))
        else:
            lines.append(respell_prose(rows, fields, line) if line.startswith("#") else line)
    return "\n".join(lines)


def main(argv):
    rows, fields, declared = table()
    if "--table" in argv:
        for n in sorted(rows):
            print(n, rows[n], sep="\t")
        return
    own = set(os.listdir("crates"))
    every = rows
    for path in [*texts("crates", (".antt", ".rt", ".edit"))]:
        text = read(path)
        rows = of_libraries(every, text, own)
        if rows is not every:
            print(f"{path}: of a library: {', '.join(sorted(every.keys() - rows.keys()))}")
        if path.endswith(".antt"):
            new = respell_code(rows, fields, text, "--")
        elif path.endswith(".rt"):
            # what is in snake case there already is Rust's
            new = respell_code({o: n for o, n in rows.items() if is_other_style(o)}, fields, text, "//")
        else:
            new = respell_edit(with_turned(rows, declared, text), fields, text)
        if new != text:
            with open(path, "w", encoding="utf-8") as f:
                f.write(new)
    rows = every
    for path in [p for p in ["README.md", *texts("docs", ".md")] if os.path.exists(p) and not p.endswith("PORT.md")]:
        text = read(path)
        new = respell_prose(with_turned(rows, declared, text), fields, text)
        if new != text:
            with open(path, "w", encoding="utf-8") as f:
                f.write(new)


if __name__ == "__main__":
    main(sys.argv[1:])
