#!/usr/bin/env python3
"""Brings the repository's own definitions and lemmas to snake case, once, after port.py: lowerCamel words and dashes become underscores, a type's name becomes upper camel.

usage: tools/respell.py [ROOT]

Turned are names that a file of specs/ or proofs/ declares by a signature, the fields of its records, and the uses of both: in the file itself, where it is imported, behind a module's name or its alias, and
fields behind any dot. Names of the library, of Rust functions and of goals that the check makes stay. In comments and documents a name turns inside backquotes, and a lowerCamel one anywhere.
A lemma that would have its definition's name gets `_lem`. Prints each name that would meet another in some file.
"""
import collections
import glob
import os
import re
import sys

ROOT = sys.argv[1] if len(sys.argv) > 1 else "."
WORD = r"[^\s(){}.;,@\"«»]+"
TOKEN = re.compile(WORD)
SIGNATURE = re.compile(r"^( *)((?:(?:unfoldable|abbrev|pub|opaque|where|let|mutual|data|record) +)*)(" + WORD + r")((?: +\{[^{}\n]*\})*) :(?= |$)(.*)", re.M)
USE = re.compile(r"^ *(?:pub +)?(?:ghost )?use ([^\s;{]+?)(?:\.\{([^}]*)\}| as ([^\s;]+))?;?\s*$", re.M)
MADE = re.compile(r"\.(?:Tie|Goals|Given|Statement|Met|Code|Symbol|Reads|Kinds|Lts)$")
# A lemma whose name would be its definition's gets `_lem`: filled in main.
FIXED = {}


def spelled(name, is_type=False):
    if name in FIXED:
        return FIXED[name]
    words = re.sub(r"(?<=[^\W\dA-Z_])-(?=\w)|(?<=[\w'′₀-₉])-(?=\w)", "_", name)
    parts = words.split("_")
    out = []
    for w in parts:
        if w[:1].islower():
            w = re.sub(r"(?<=[a-z0-9])([A-Z])", lambda m: "_" + m[1].lower(), w)
            w = re.sub(r"(?<=_[a-z])([A-Z])", lambda m: "_" + m[1].lower(), w)
        out.append(w)
    new = "_".join(out)
    if is_type:
        new = "".join(w[:1].upper() + w[1:] for w in new.split("_"))
    return new


class File:
    def __init__(self, path):
        self.path = path
        with open(path, encoding="utf-8") as f:
            self.text = f.read()
        c, kind, rest = re.match(r".*crates/(\w+)/(\w+)/(.*)\.\w+$", path).groups()
        self.crate, self.kind = c, kind
        self.module = f"Rattle.{c}.{kind}." + rest.replace("/", ".")
        self.names, self.fields = {}, {}
        if path.endswith(".antt"):
            self.read()

    def read(self):
        block = None  # the indent and the kind of an open record or data
        for line in self.text.split("\n"):
            indent = len(line) - len(line.lstrip())
            if line.strip() and not line.strip().startswith("--") and block is not None and indent <= block[0]:
                block = None
            head = re.match(r"^ *(?:pub +)?(record|data) ", line)
            if head and line.rstrip().endswith("where"):
                block = (indent, head[1])
                continue
            m = SIGNATURE.match(line)
            if not m:
                continue
            name, kind, type_ = m[3], m[2], m[5]
            if block and block[1] == "record" and indent == block[0] + 2:
                self.fields[name] = True
                continue
            if re.match(r" *(?:tie|goal)\.", type_):
                continue
            t = re.sub(r"^.*→ ", "", type_.strip())
            self.names[name] = bool(re.fullmatch(r"Type( 0| ℓ| \d)?", t)) and name[0].islower() and not kind.strip().startswith("let")


def uses(f):
    """What the file imports: name -> module, alias -> module."""
    items, aliases = {}, {}
    for m in USE.finditer(f.text):
        if m[2] is not None:
            for it in m[2].split(","):
                it = it.strip()
                if it:
                    n = it.split(" as ")
                    items[n[0].strip()] = m[1]
        else:
            aliases[m[3] or m[1].split(".")[-1]] = m[1]
    return items, aliases


def changes(n):
    return n in FIXED or bool(re.search(r"[\w'′]-\w", n) or re.match(r"[a-z_]\w*?[a-z0-9][A-Z]|.*[-_][a-z]\w*?[A-Z]|[a-z][A-Z]", n))


def main():
    files = {p: File(p) for p in sorted(glob.glob(f"{ROOT}/crates/*/specs/**/*.antt", recursive=True) + glob.glob(f"{ROOT}/crates/*/proofs/**/*.antt", recursive=True) + glob.glob(f"{ROOT}/crates/*/src/**/*.rt", recursive=True))}
    by_module = {f.module: f for f in files.values()}
    fields = {}
    for f in files.values():
        for n in f.fields:
            if changes(n):
                fields[n] = spelled(n)
    everything = {}
    for f in files.values():
        for n, t in f.names.items():
            if changes(n):
                everything.setdefault(n, spelled(n, t))
    own_names = {n for f in files.values() for n in f.names}
    camel = {spelled(n, t) for f in files.values() for n, t in f.names.items() if changes(n) and not re.search(r"\w-\w", n)}
    plain = {n for n in own_names if not changes(n)}
    for n in own_names:
        if n in plain and n in camel or "-" in n and changes(n) and spelled(n) in camel | plain:
            FIXED[n] = spelled(n) + "_lem"
            everything[n] = FIXED[n]
    said = collections.Counter()
    for f in files.values():
        items, aliases = uses(f)
        table = {}
        for n, t in f.names.items():
            if changes(n):
                table[n] = spelled(n, t)
        for n, m in items.items():
            own = by_module.get(m)
            if own and n in own.names and changes(n):
                table[n] = spelled(n, own.names[n])
            elif n in table and not own:
                said[f"{f.path}: declares {n} and imports it from {m}"] += 1
        before = set(TOKEN.findall(code_of(f.text))) if f.path.endswith(".antt") else set()
        text = turn(f, table, fields, aliases, by_module, everything)
        if f.path.endswith(".rt"):
            for head in re.findall(r"\bfn \w+(?:<[^>]*>)?\(([^{]*?)\)", f.text):
                for it in set(re.findall(r"\b(\w+): ", head)) & set(table.values()):
                    said[f"{f.path}: a parameter is named {it}"] += 1
        back = collections.defaultdict(set)
        for n in before:
            back[table.get(n, n)].add(n)
        for new, olds in back.items():
            if len(olds) > 1:
                said[f"{f.path}: {sorted(olds)} meet as {new}"] += 1
        if text != f.text:
            with open(f.path, "w", encoding="utf-8") as out:
                out.write(text)
    turn_pages(everything | fields)
    for s in sorted(said):
        print(s)
    print(f"respell: {len(everything)} names, {len(fields)} fields, {len(said)} that meet others")


def code_of(text):
    return re.sub(r"(?m)(^|\s)--[^\n]*", r"\1", text)


def turn_prose(text, all_):
    text = re.sub(r"`([^`\n]+)`", lambda m: "`" + TOKEN.sub(lambda w: all_.get(w[0], w[0]), m[1]) + "`", text)
    return re.sub(r"(?<![\w`./·-])([a-z]+[A-Z]\w*)(?![\w(])", lambda m: all_.get(m[1], m[1]), text)


def turn(f, table, fields, aliases, by_module, everything):
    comment = "//" if f.path.endswith(".rt") else "--"
    all_ = everything | fields | table
    out = []
    for line in f.text.split("\n"):
        at = re.search(r"(?:^|\s)" + re.escape(comment) + r"(?=\s|$|-)", line)
        code, rest = (line[: at.start()], line[at.start() :]) if at else (line, "")
        out.append(turn_code(f, code, table, fields, aliases, by_module) + turn_prose(rest, all_))
    return "\n".join(out)


def turn_code(f, code, table, fields, aliases, by_module):
    is_use = re.match(r" *(?:pub +)?(?:ghost )?use ", code)
    if is_use:
        m = USE.match(code)
        if not m or m[2] is None:
            return code
        own = by_module.get(m[1])
        if not own:
            return code
        a, b = code.split("{", 1)
        return a + "{" + TOKEN.sub(lambda w: spelled(w[0], own.names[w[0]]) if w[0] in own.names and changes(w[0]) else w[0], b)

    def one(m):
        w, at = m[0], m.start()
        if at and code[at - 1] == ".":
            head = re.search(r"(" + WORD + r")\.$", code[:at])
            chain = re.search(r"((?:" + WORD + r"\.)+)$", code[:at])
            h = head and chain[1][:-1]
            if h and h in aliases:
                own = by_module.get(aliases[h])
                if own and w in own.names and changes(w):
                    return spelled(w, own.names[w])
                if own is None and not aliases[h].startswith("Rattle."):
                    return w
                if MADE.search(aliases[h]):
                    return w
            return fields.get(w, w)
        if w in table:
            return table[w]
        # a field in a record that is written out, or declared
        if w in fields and (re.match(r" +[:=](?!=)", code[m.end() :]) or w in f.fields):
            return fields[w]
        return w

    return TOKEN.sub(one, code)


def turn_pages(all_):
    pages = [p for p in glob.glob(f"{ROOT}/*.md") + glob.glob(f"{ROOT}/docs/*.md") + glob.glob(f"{ROOT}/oracle/*.md") + glob.glob(f"{ROOT}/crates/*/*.md")]
    for p in pages:
        with open(p, encoding="utf-8") as f:
            t = f.read()
        new = turn_prose(t, {k: v for k, v in all_.items()})
        if new != t:
            with open(p, "w", encoding="utf-8") as f:
                f.write(new)


if __name__ == "__main__":
    main()
