#!/usr/bin/env python3
"""Counts the places of docs/DESIGN-PASS.md in crates/*/src of this checkout, or of a commit: places.py [COMMIT] [POINT]."""
import re
import subprocess
import sys

INTEGERS = r"\b(u8|u16|u32|u64|usize|i8|i16|i32|i64|bool)\b"


def sources(commit):
    if commit is None:
        names = subprocess.check_output(["git", "ls-files", "-co", "--exclude-standard", "crates/*/src/*.rt"], text=True).split()
        return {name: open(name, encoding="utf-8").read() for name in names}
    listing = subprocess.check_output(["git", "ls-tree", "-r", "--name-only", commit, "crates"], text=True)
    names = [n for n in listing.split("\n") if re.match(r"crates/[^/]+/src/.*\.rt$", n)]
    show = lambda n: subprocess.check_output(["git", "show", f"{commit}:{n}"], text=True)
    return {name: show(name) for name in names}


def functions(text):
    """Each function with a body: its name, its signature with the clauses, and its body."""
    for found in re.finditer(r"^( *)(?:pub |pub\(crate\) )?(?:unsafe )?(?:extern \"C\" )?fn (\w+)", text, re.M):
        end = text.find("\n" + found.group(1) + "}\n", found.end())
        start = text.find("\n" + found.group(1) + "{\n", found.end())
        if start < 0 or end < start:
            line = text.find("\n", found.end())
            one = text[found.start() : line]
            if one.rstrip().endswith("{"):
                yield found.group(2), one, text[line : text.find("\n" + found.group(1) + "}\n", line)]
            continue
        yield found.group(2), text[found.start() : start], text[start:end]


def parameters_of(head):
    """The signature without its clauses."""
    return re.split(r"requires|ensures", head)[0]


def without_comments(text):
    return re.sub(r"//[^\n]*", "", text)


ONE_OR_NOTHING = r"^(?:pub )?enum (\w+) \{\n    (\w+)(\([^)]*\)| \{[^}]*\})?,\n    (\w+)(\([^)]*\)| \{[^}]*\})?,\n\}"


def results(name, text):
    """1: enums like Option or Result, numbers in the place of a Result, a flag with a value beside it, numbers for 'none' and for kinds."""
    for found in re.finditer(ONE_OR_NOTHING, text, re.M):
        yield f"enum {found.group(1)}"
    for fn, head, body in functions(text):
        if re.search(r"-> (Answer|Opening|Scale|House|Assembled|Reading)\b", head):
            yield f"{fn} answers a type of its own"
        elif re.search(r"-> u32\b", head) and re.search(r"result ≡ (answer|check)\b", head):
            yield f"{fn} answers a number for a refusal"
        code = without_comments(body)
        for _ in re.findall(r"if (?:number|wrong|x|y) != 0", code):
            yield f"{fn} tests a refusal's number"
        for _ in re.findall(r"contents::names\(codes, \w+\)", code):
            yield f"{fn} asks names() beside find()"
        if re.search(r"\bthere: bool", head):
            yield f"{fn} takes a flag with a value beside it"
        for what in NONE.get((name.split("/")[1], fn), []):
            if re.search(what, code):
                yield f"{fn} has a number for none"
    for found in re.finditer(r"^    (?:pub )?(ok: bool|number: u32|strip: bool)", text, re.M):
        yield f"field {found.group(1)}"
    for kind, where in KINDS.items():
        if name == where:
            yield f"number for a kind: {kind}"


# where a number says that there is none
NONE = {
    ("bitmap", "next_in"): ["return 64"],
    ("bitmap", "walk"): ["65535"],
    ("judging", "list_large"): [r"MOST_LARGE \+ 1"],
    ("selecting", "select"): ["return 0"],
    ("grid", "last_row"): ["as usize$"],
    ("grid", "previous_row"): ["as usize$"],
    ("searching", "found_of"): ["den == 0"],
    ("searching", "found"): ["den == 0"],
    ("scheduling", "sent"): ["den == 0"],
    ("viewing", "walk"): ["value: 65535"],
    ("rollmap", "rollmap_walk"): ["NONE_LEFT"],
}

# kinds that are numbers, and where each is first taken
KINDS = {
    "the shape": "crates/marks/src/lib.rt",
    "the edition": "crates/marks/src/lib.rt",
    "the kind of a mark": "crates/marks/src/lib.rt",
    "the group of a kind": "crates/marks/src/lib.rt",
    "the code of a part": "crates/contents/src/lib.rt",
}


def shape_of(body):
    text = without_comments(body)
    text = re.sub(r"\b\d[\w]*\b", "N", text)
    text = re.sub(INTEGERS, "T", text)
    text = re.sub(r"\b[A-Z][A-Z_]+\b", "N", text)
    text = re.sub(r"(<=|<)", "<", text)
    text = re.sub(r"\b[a-z]\w*(::\w+)*\(", "f(", text)
    names = {}
    text = re.sub(r"\b[a-z]\w*\b", lambda m: m.group(0) if m.group(0) in KEYWORDS else names.setdefault(m.group(0), f"v{len(names)}"), text)
    return re.sub(r"\s+", "", text)


KEYWORDS = {"let", "mut", "if", "else", "while", "for", "in", "return", "match", "as", "true", "false", "f"}


def twins(files):
    """2: functions whose bodies are the same but for names, types and constants."""
    groups = {}
    for name, text in files.items():
        if "/rollmap_c/" in name:
            continue
        for fn, head, body in functions(text):
            key = shape_of(body)
            if len(key) >= 24:
                groups.setdefault(key, []).append(f"{name.split('/')[1]}::{fn}")
    for group in groups.values():
        if len(group) > 1:
            for one in group:
                yield "twins: " + one + " of " + ", ".join(g for g in group if g != one)


def loops(name, text):
    """3: loops that are counted by hand: a while whose body ends in a step of one."""
    for fn, head, body in functions(text):
        for found in re.finditer(r"^ *while .*$", without_comments(body), re.M):
            yield f"{fn}: {found.group(0).strip()}"


def by_hand(name, text):
    """4: the lesser, the greater and the difference, equality, order and conversion written by hand."""
    for fn, head, body in functions(text):
        code = without_comments(body)
        flat = re.sub(r"\s+", " ", code)
        for found in re.finditer(r"if (\w+) <=? (\w+) \{ (?:return )?(\w+);? \}(?: else \{)? (\w+) ?\}?", flat):
            if {found.group(3), found.group(4)} == {found.group(1), found.group(2)}:
                yield f"{fn}: min or max"
        if re.search(r"if (\w+) < (\w+) \{ (?:return )?\(?\2 - \1", flat):
            yield f"{fn}: a difference that stops at 0"
        if re.search(r"\.(num|high|low) == \w+\.(num|high|low)", flat):
            yield f"{fn}: equality or order"
        if len(re.findall(r"Value::(?:Never|At\(\w+\)) =>", flat)) >= 4:
            yield f"{fn}: equality or order"
        if re.search(r"\[i\] != \w+\[i\]|\[i\] == code", flat):
            yield f"{fn}: equality or membership by a loop"
        if re.search(r"< 32768|% 256\) as u8|/ 256\) as u8", flat):
            yield f"{fn}: conversion"
        if re.search(r"if [^{}]* \{ return (?:true|false); \} (?:true|false) \}?$", flat):
            yield f"{fn}: a test turned into a test"
        if re.search(r"48 \+ ", flat):
            yield f"{fn}: printing"


def together(name, text):
    """5: parameters that travel together: functions of seven parameters and more."""
    for fn, head, body in functions(text):
        count = len(re.findall(r"\w+: ", re.sub(r"<[^<>]*>", "", parameters_of(head))))
        if count >= 7:
            yield f"{fn} takes {count} parameters"


def facts(name, text):
    """5: facts that stand in the requires of three functions of a file and more."""
    seen = {}
    for fn, head, body in functions(text):
        for clause in re.findall(r"requires(?: \w+)? \{ (.*) \}", head):
            for fact in sorted(set(re.split(r" × ", clause))):
                fact = fact.strip("() ")
                seen.setdefault(fact, set()).add(fn)
    for fact, fns in seen.items():
        if len(fns) >= 3:
            yield f"{len(fns)} functions ask: {fact}"


def buffers(name, text):
    """6: arrays with a length beside them, and parallel arrays."""
    for fn, head, body in functions(text):
        code = without_comments(parameters_of(head) + body)
        for found in re.finditer(r"(?:= \[0\w*; \w+\]|: \[\w+; 7\]|-> \[\w+; TOP\])", code):
            yield f"{fn}: {found.group(0)}"
        if re.search(r"codes: &(mut )?\[u16\],\s*(bodies|sizes)", code):
            yield f"{fn}: parallel arrays"
        if re.search(r"large: &(mut )?\[u16\]", code):
            yield f"{fn}: an array with a count beside it"


def switches(name, text):
    """7: flags that say which step to run."""
    for fn, head, body in functions(text):
        flags = r"\b(popped|tie|axis|left|low|counted|there|strip|more|fits|index|edition|popups|counts|shape): bool"
        yield from [f"{fn}: {flag}" for flag in re.findall(flags, parameters_of(head))]


def main():
    commit = sys.argv[1] if len(sys.argv) > 1 and sys.argv[1] != "." else None
    point = sys.argv[2] if len(sys.argv) > 2 else None
    files = sources(commit)
    each = {"1": [results], "3": [loops], "4": [by_hand], "5": [together, facts], "6": [buffers], "7": [switches]}
    for number in "1234567":
        if point and number != point:
            continue
        found = []
        if number == "2":
            found = list(twins(files))
        else:
            for name, text in sorted(files.items()):
                if "/rollmap_c/" in name:
                    continue
                for count in each[number]:
                    found += [f"{name.split('/')[1]}: {place}" for place in count(name, text)]
        print(f"{number}: {len(found)}")
        if point:
            for place in found:
                print("  " + place)


main()
