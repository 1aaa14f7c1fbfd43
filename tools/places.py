#!/usr/bin/env python3
"""Counts, in crates/*/src, the places that docs/DESIGN-PASS.md speaks of: tools/places.py [-v] [TREE].

1 enums      an enum with a variant `Refused(u32)`, or of a value and its absence
1 flags      a struct with a bool or a refusal's number beside the values that hold only then
1 numbers    a function, not of exports, that answers with a refusal's number (0 for none)
2 twins      functions with one name in two crates, or in one, whose bodies differ in types, numbers and names of parameters alone
3 loops      a `while` whose body counts its index by hand
4 by hand    a function that only converts a number, or copies, fills or compares a slice
5 models     a function that takes a built model as six parameters; 5 chains: a chain as five; 5 rows: the rows of jumps, of links, of pairs or of couplings one by one
6 lengths    a function that takes a slice and beside it how many of its entries are in use
7 switches   a function, not of exports, that takes a bool
A place stays where a comment line `// Stays: ..` above it says why; the second number counts these. With -v each place is named, with its reason.
"""
import collections
import glob
import os
import re
import sys

ARGS = [a for a in sys.argv[1:] if a != "-v"]
ROOT = ARGS[0] if ARGS else os.path.dirname(os.path.dirname(os.path.realpath(__file__)))
FOUND = collections.defaultdict(list)
STAYS = {}
GROUPS = {
    "5 models": [["label_values", "offsets", "edge_labels", "edge_targets", "edge_weights"], ["left_values", "left_offsets", "left_labels", "left_targets", "left_weights"]],
    "5 chains": [["left_offsets", "left_targets", "left_probs"], ["chain_offsets", "chain_targets", "chain_probs"], ["left_chain_offsets", "left_chain_targets", "left_chain_probs"], ["offsets", "targets", "probs"]],
    "5 rows": [["exits", "starts", "targets", "probs"], ["starts", "targets", "probs"], ["heads", "caps"], ["lefts", "rights", "codes"], ["starts", "lengths", "places", "masses"], ["left_targets", "right_targets", "relation"], ["left_targets", "left_rates", "right_targets", "right_rates"]],
}


def functions(text):
    for m in re.finditer(r"^( *)(?:pub(?:\(crate\))? )?(?:extern \"C\" )?fn (\w+)[^(]*\(", text, re.M):
        end = text.find("\n" + m[1] + "}\n", m.end())
        whole = text[m.start():end if end >= 0 else len(text)]
        depth, i = 1, m.end() - m.start()
        while depth:
            depth += {"(": 1, "[": 1, ")": -1, "]": -1}.get(whole[i], 0)
            i += 1
        params = whole[m.end() - m.start():i - 1]
        body = whole[i:]
        at = re.search(r"(?:^ *|\S )\{\n", body, re.M)
        yield m[2], params, body[:at.start()] if at else body, body[at.end():] if at else ""


def norm(params, body):
    names = re.findall(r"(\w+):", params)
    for k, n in enumerate(names):
        body = re.sub(rf"\b{n}\b", f"p{k}", body)
    body = re.sub(r"\b(u8|u32|u64|usize|f64)\b|\b\d[\d_.e-]*\b", "#", body)
    return re.sub(r"\s+", " ", body)


def scan(path):
    crate = path.split("/")[-3]
    text = open(path).read()
    for m in re.finditer(r"^ *// Stays: ([^\n]*)\n(?: *(?://|#)[^\n]*\n)*(?: *(?:pub(?:\(crate\))? )?(?:extern \"C\" )?(fn|enum|struct) (\w+))?", text, re.M):
        named = m[3] or next((n for n, _, _, body in functions(text) if m[1] in body), os.path.basename(path))
        STAYS[f"{crate}::{named}" if m[2] in ("enum", "struct") else f"{crate}::{os.path.basename(path)[:-3]}::{named}"] = m[1]
    text = re.sub(r"//[^\n]*", "", text)
    for m in re.finditer(r"enum (\w+)[^{]*\{(.*?)\n *\}\n", text, re.S):
        if "Refused(u32)" in m[2] or re.search(r"\bAbsent\b", m[2]):
            FOUND["1 enums"].append(f"{crate}::{m[1]}")
    for m in re.finditer(r"struct (\w+)[^{;]*\{(.*?)\n *\}\n", text, re.S):
        if re.search(r"\b(done|known|pushed|home|reached|improved|back|on|cut): bool|\b(refusal|refused): u32", m[2]):
            FOUND["1 flags"].append(f"{crate}::{m[1]}")
    for name, params, head, body in functions(text):
        where = f"{crate}::{os.path.basename(path)[:-3]}::{name}"
        answers = "-> u32" in head.split("requires")[0].split("ensures")[0]
        if crate != "exports" and answers and re.search(r"refus|fault|^(earlier|first|combine|later|lower|arranged|write_contributions|add_edge|number_of|put_\w+|code)$", name):
            FOUND["1 numbers"].append(where)
        for m in re.finditer(r"^( *)while [^\n]*\{\n(.*?)\n\1\}", body, re.S | re.M):
            counted = re.findall(r"^ *(\w+) [+-]= 1;$", m[2], re.M)
            if any(re.search(r"\b" + i + r"\b", m[0].split("\n")[0]) for i in counted):
                FOUND["3 loops"].append(where)
        lines = [l.strip() for l in body.split("\n") if l.strip()]
        if len(lines) == 1 and re.fullmatch(r"\w+ as (usize|u32|u64)", lines[0]) or re.search(r"fn (copy|clear|fill|same)", "fn " + name) and "while" in body:
            FOUND["4 by hand"].append(where)
        names = re.findall(r"(\w+):", params)
        if crate != "exports":
            for group, sets in GROUPS.items():
                if any(all(n in names for n in s) for s in sets):
                    FOUND[group].append(where)
            if re.search(r"\b(n|m|count|given|left_count|right_count): usize", params) and "&" in params and "[" in params:
                FOUND["6 lengths"].append(where)
            if re.search(r": bool\b", params):
                FOUND["7 switches"].append(where)
        if len(lines) > 4:
            TWINS[norm(params, body)].append(where)
        elif lines:
            TWINS[name + norm(params, body)].append(where)


TWINS = collections.defaultdict(list)
for p in sorted(glob.glob(os.path.join(ROOT, "crates/*/src/*.rt"))):
    scan(p)
for group in TWINS.values():
    if len(group) > 1:
        FOUND["2 twins"] += group
for kind in ["1 enums", "1 flags", "1 numbers", "2 twins", "3 loops", "4 by hand", "5 models", "5 chains", "5 rows", "6 lengths", "7 switches"]:
    print(f"{kind:10} {len(FOUND[kind]):4} {sum(w in STAYS for w in FOUND[kind]):4}")
    if "-v" in sys.argv:
        for w in FOUND[kind]:
            print("          ", w, STAYS.get(w, ""))
