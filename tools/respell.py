#!/usr/bin/env python3
"""Brings the repository's own definitions and lemmas to the spelling of today's Rattle: words in snake case, types and facts in
upper camel case. A dash stays where it joins names in the name of a lemma.

usage: tools/respell.py [--check]     at the top of the repository, right after the kit's port.py. A second run turns nothing more.

It reads every declaration of crates/*/specs and crates/*/proofs, decides by its type what it is (a type, a function, a lemma), and
turns each name as a whole word in .antt and .rt files, in must-fail edits, and in code spans of README.md and docs/.
Comments keep their prose. Names that would fall together with another word of a file are listed, and get the spelling of BY_HAND.
"""
import collections
import glob
import os
import re
import sys

NAME = r'[^\s(){}.;,@"«»]+'
WORD = re.compile(NAME)
QUIET = re.compile(r'"(?:[^"\\\n]|\\.)*"|(?<!\S)--[^\n]*|\{-.*?-\}', re.S)
QUIET_RUST = re.compile(r'//[^\n]*|"(?:[^"\\\n]|\\.)*"')
DECLARED = re.compile(
    r"^( *)((?:pub |abbrev |unfoldable |opaque |irreducible |instance |unfolding )*)(" + NAME + r")((?: (?:\{[^{}]*\}|\([^()]*\)))*) : (.*)$"
)
HEADED = re.compile(r"^( *)((?:pub |abbrev |unfoldable |opaque |irreducible |instance )*)(record|data|ruleset|syntax)\s+(?:pub )?(" + NAME + ")(.*)$")
BY_HAND = {
    "answered": "answered",
    "by-resource": "by_resource",
    "notSaved": "file_not_saved",
    "noRecord": "no_record_read",
    "table-of": "checked_table",
    "tokenOf": "token_of_row",
    "resourceOf": "resource_of_row",
    "packetAt": "packet_read_at",
    "is-nan": "is_nan_bits",
    "streamOf": "judged_stream",
    "runFor": "run_while",
}
DATA = {"ℕ", "ℤ", "Bool", "List", "Maybe", "Option", "Float"}


def codomain(sig):
    depth, last = 0, 0
    for i, ch in enumerate(sig):
        if ch in "({⟨":
            depth += 1
        elif ch in ")}⟩":
            depth -= 1
        elif ch == "→" and depth == 0:
            last = i + 1
    return sig[last:].strip()


def source_files(ending):
    for folder, dirs, files in os.walk("crates"):
        dirs[:] = sorted(d for d in dirs if d != "out")
        for f in sorted(files):
            if f.endswith(ending):
                yield os.path.join(folder, f)


def is_answers(path):
    return re.search(r"/proofs/(.+/)?(Proof|Answers|Invariants)\.antt$", path)


def read(path):
    with open(path, encoding="utf-8") as f:
        return f.read()


def declarations():
    """Name -> the set of kinds under which it is declared; and the types that hold data."""
    kinds, signatures, data = collections.defaultdict(set), [], set(DATA)
    for path in source_files(".antt"):
        if is_answers(path):
            continue
        lines = QUIET.sub("", read(path)).split("\n")
        i = 0
        while i < len(lines):
            m = HEADED.match(lines[i])
            if m:
                kinds[m[4]].add("type" if m[3] in ("record", "data") else "function")
                if m[3] in ("record", "data") and not re.search(r"\([^()]*: (?!Type)", m[5]):
                    data.add(m[4])
                i += 1
                continue
            m = DECLARED.match(lines[i])
            i += 1
            if m and m[3] not in ("module", "use", "where", "let", "pub"):
                sig, deep = m[5], len(m[1])
                while i < len(lines) and re.match(r"^ {%d,}(→|×|≡|↔|⊎)" % (deep + 1), lines[i]):
                    sig += " " + lines[i].strip()
                    i += 1
                signatures.append((m[3], sig))
    for path in source_files(".rt"):
        data.update(re.findall(r"\b(?:struct|enum) (\w+)", read(path)))
    for name, sig in signatures:
        end = codomain(sig)
        flat = re.sub(r"\([^()]*\)|\{[^{}]*\}", "", end)
        head = WORD.match(end)
        if re.match(r"Type\b", end):
            kinds[name].add("type")
        elif re.search(r"≡|≤|≢|<|↔|⊎|≥|¬|∈|⊥", flat) or not head or head[0] not in data:
            kinds[name].add("lemma")
        else:
            kinds[name].add("function")
    return kinds


def snake(word):
    return re.sub(r"(?<=[a-z0-9])[A-Z](?=[a-z]|$|['₀-₉-])", lambda m: "_" + m[0].lower(), word)


def respelled(name, kinds):
    if name in BY_HAND:
        return BY_HAND[name]
    if not re.match(r"[a-z]", name):
        return name
    if "type" in kinds:
        return "".join(p[:1].upper() + p[1:] for p in re.split(r"[-_]", name))
    parts = ["get_or" if p == "getD" else snake(p) if re.match("[a-z]", p) else p for p in name.split("-")]
    return ("-" if kinds == {"lemma"} else "_").join(parts)


def turn(text, table, quiet):
    def plain(part):
        return WORD.sub(lambda m: table.get(m[0], m[0]), part)

    out, last = [], 0
    for m in quiet.finditer(text) if quiet else ():
        out += [plain(text[last : m.start()]), m[0]]
        last = m.end()
    return "".join(out) + plain(text[last:])


def main():
    check = "--check" in sys.argv
    kinds = declarations()
    table = {n: respelled(n, k) for n, k in kinds.items()}
    table = {n: new for n, new in table.items() if n != new}
    texts = {}
    for ending, quiet in ((".antt", QUIET), (".rt", QUIET_RUST), (".edit", None)):
        for path in source_files(ending):
            texts[path] = (read(path), quiet)
    fell = collections.Counter()
    for path, (text, quiet) in texts.items():
        words = set(WORD.findall(quiet.sub("", text) if quiet else text))
        back = collections.defaultdict(set)
        for w in words:
            back[table.get(w, w)].add(w)
        for new, olds in back.items():
            if len(olds) > 1:
                fell[(new, tuple(sorted(olds)))] += 1
                print("falls together:", path, new, sorted(olds))
    turned = 0
    for path, (text, quiet) in texts.items():
        new = turn(text, table, quiet)
        if new != text:
            turned += 1
            if not check:
                with open(path, "w", encoding="utf-8") as f:
                    f.write(new)
    for path in ["README.md", *sorted(glob.glob("docs/*.md"))]:
        text = read(path)
        new = re.sub(r"`[^`\n]+`", lambda m: turn(m[0].strip("`"), table, None).join("``"), text)
        if new != text and not check:
            with open(path, "w", encoding="utf-8") as f:
                f.write(new)
    print(len(table), "names turned in", turned, "files;", len(fell), "fall together")
    with open("/tmp/respelled.tsv", "w", encoding="utf-8") as f:
        f.writelines(f"{a}\t{b}\n" for a, b in sorted(table.items()))


main()
