#!/usr/bin/env python3
"""Compares the statements of specs/ and proofs/ (but for answers) with those of a commit: statements.py COMMIT."""
import re
import subprocess
import sys


def listing(commit):
    if commit is None:
        return [n for n in subprocess.check_output(["git", "ls-files", "-co", "--exclude-standard", "crates"], text=True).split("\n")]
    return subprocess.check_output(["git", "ls-tree", "-r", "--name-only", commit, "crates"], text=True).split("\n")


def wanted(name):
    return name.endswith(".antt") and re.match(r"crates/\w+/(specs|proofs)/(\w+/)*[A-Z]\w*\.antt$", name) and not re.search(r"/(Answers|Invariants|Lib)\.antt$", name)


def read(commit, name):
    if commit is None:
        try:
            return open(name, encoding="utf-8").read()
        except FileNotFoundError:
            return ""
    return subprocess.check_output(["git", "show", f"{commit}:{name}"], text=True)


def declarations(text):
    """name -> the statement with what it defines, of a definition or a record; the statement alone, of a theorem."""
    lines = [l for l in text.split("\n")]
    found = {}
    i = 0
    while i < len(lines):
        line = lines[i]
        m = re.match(r"^( *)((?:unfoldable |abbrev )?(?:pub )?(?:record |data )?)([^\s(){}:]+)( \(.*| \{.*)? :( |$)", line)
        if m and not line.lstrip().startswith(("--", "use ", "module", "pub mod")):
            indent, kind, name = len(m.group(1)), m.group(2), m.group(3)
            j = i + 1
            block = [line.strip()]
            while j < len(lines) and (not lines[j].strip() or len(lines[j]) - len(lines[j].lstrip()) > indent):
                if lines[j].strip() and not lines[j].strip().startswith("--"):
                    block.append(lines[j].strip())
                j += 1
            defines = "unfoldable" in kind or "abbrev" in kind
            if defines:
                while j < len(lines) and (not lines[j].strip() or len(lines[j]) - len(lines[j].lstrip()) > indent or lines[j].strip().startswith(("unfolding ", name + " ", name + " ="))):
                    if re.match(r"^ *((?:unfoldable |abbrev )?(?:pub )?)[^\s(){}:]+ :", lines[j]) and len(lines[j]) - len(lines[j].lstrip()) <= indent:
                        break
                    if lines[j].strip() and not lines[j].strip().startswith("--"):
                        block.append(lines[j].strip())
                    j += 1
            found.setdefault(name, []).append(re.sub(r"\s+", " ", " ".join(block)))
            i = j
            continue
        i += 1
    return found


def collect(commit):
    out = {}
    for name in listing(commit):
        if wanted(name):
            crate, where = name.split("/")[1:3]
            for key, texts in declarations(read(commit, name)).items():
                out.setdefault((crate, key), []).extend((name, t) for t in texts)
    return out


def main():
    old, new = collect(sys.argv[1]), collect(None)
    gone = sorted(k for k in old if k not in new)
    came = sorted(k for k in new if k not in old)
    changed = []
    for k in sorted(old):
        if k in new:
            a, b = sorted(t for _, t in old[k]), sorted(t for _, t in new[k])
            if a != b:
                changed.append((k, [t for t in a if t not in b], [t for t in b if t not in a]))
    print(f"the same: {sum(1 for k in old if k in new) - len(changed)}; changed: {len(changed)}; gone: {len(gone)}; new: {len(came)}")
    for (crate, name), a, b in changed:
        print(f"\n{crate} {name}\n  was: " + "\n       ".join(a) + "\n  is:  " + "\n       ".join(b))
    print("\ngone:")
    for k in gone:
        print(" ", k[0], k[1], old[k][0][0], "|", old[k][0][1][:200])
    print("\nnew:")
    for k in came:
        print(" ", k[0], k[1], new[k][0][0], "|", new[k][0][1][:200])


main()
