#!/usr/bin/env python3
"""Lists groups of functions whose bodies are equal but for names and numbers.

usage: tools/twins.py CHECKOUT [TOKENS]   bodies of fewer tokens (18) are left out
"""
import collections
import glob
import re
import sys

HEAD = re.compile(r"^( *)(?:#\[[^\n]*\] )?(?:pub )?(?:extern \"C\" )?fn (\w+)")
KEPT = set("let mut if else return match for in while loop break continue as fn true false self Some None Ok Err "
           "u8 u16 u32 u64 usize i32 f32 bool".split())


def bodies(lines):
    """Each function's name and body."""
    for at, line in enumerate(lines):
        head = HEAD.match(line)
        if not head:
            continue
        indent, name = head.groups()
        begin = next((i for i in range(at, len(lines))
                      if lines[i] == indent + "{"
                      or lines[i].endswith(" {") and (i == at or lines[i].startswith(indent + ")"))), None)
        end = begin and next((i for i in range(begin + 1, len(lines)) if lines[i] == indent + "}"), None)
        if end:
            yield name, "\n".join(lines[begin + 1:end])


def shape(body):
    """How many tokens a body has, and these with names numbered in the order of their first use."""
    tokens = re.findall(r"[A-Za-z_]\w*|\d[\w.]*|[^\s\w]", re.sub(r"//[^\n]*", "", body))
    names = {}
    out = []
    for token in tokens:
        if re.match(r"[A-Za-z_]", token) and token not in KEPT:
            out.append(names.setdefault(token, "v%d" % len(names)))
        else:
            out.append("N" if token[0].isdigit() else token)
    return len(tokens), " ".join(out)


def main():
    root, least = sys.argv[1], int(sys.argv[2]) if len(sys.argv) > 2 else 18
    groups = collections.defaultdict(list)
    for path in sorted(glob.glob(root + "/crates/*/src/*.rt")):
        crate = path.split("/crates/")[1].split("/")[0]
        for name, body in bodies(open(path).read().split("\n")):
            size, key = shape(body)
            if size >= least:
                groups[key].append("%s::%s" % (crate, name))
    twins = sorted((names for names in groups.values() if len(names) > 1), key=len, reverse=True)
    for names in twins:
        print(" ".join(names))
    print(len(twins), "groups")


main()
