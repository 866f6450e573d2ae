#!/usr/bin/env python3
"""Brings the definitions and lemmas of this repository to the spelling of today's Rattle. Run once, at the top, after port.py and before any proof.

usage: python3 tools/respell.py [--try] [--table FILE | --use FILE]
(--try: writes nothing, and lists what would change; --table: also writes the names, old and new, to FILE; --use: takes them from there)

A word is in snake case (`keyLimit` -> `key_limit`, `Relay` -> `relay`, `live-unique` -> `live_unique`); a type, a fact (what ends in `Type 0` or
`Type 1`) and a module keep their capitals; a dash stays where it joins the names of two words (`bit-or`).
A name stays as it is, and a line `kept:` says why, where the new spelling stands already in a file that has the old one: two names would fall together, or a
variable would hide the word. Functions of src/, exported C names, strings, inputs and outputs keep their names: in .rt files only `ghost use` lines, comments
and clauses are read. Edits and pages (README.md, docs/*.md but the documents that were given) follow.
"""
import collections
import glob
import os
import re
import sys

EDGE = r"[^\s(){}.;,@\"«»`:\[\]]"
WORD = EDGE + "+"
TOKEN = re.compile(rf"(?<!{EDGE}){WORD}(?!{EDGE})|{WORD}")
STOP = set("use pub abbrev unfoldable data record module where let in elim as open rw simp omega grind cc search with syntax private infix".split())
RESERVED = STOP | set("end ground assumption first_of hlevel unfolding tt absurd refl result self rt alloc zero suc true false none some".split())
# words of std that a lemma's name may begin with or join
STD = set("or and xor append cons length".split())
# names for which a telling one was found by hand, everywhere or in one crate
BETTER = {"level-of": "level_at", "is-subject": "about_root", "getD-in": "get_or_in", "getD-place": "get_or_place",
          "first_of": "first_part", "second_of": "second_part", "thirdOf": "third_part"}
IN_CRATE = {
    "script": {"of-state": "state_asked", "of-evaluated": "evaluated_asked", "revocations-of": "lists_revocations", "delegations-to": "lists_delegations"},
    "answers": {"delegations-to": "same_delegations_to", "revocations-of": "same_revocations_of"},
    "order": {"delegations-to": "same_delegations_to", "revocations-of": "same_revocations_of"},
}
# names that port.py turned, and that the pages still have
PAGES = {n: re.sub(r"(?<=[a-z])([A-Z])", lambda m: "_" + m[0].lower(), n).replace("-", "_")
         for n in "any-order ends-same rankOf byteOf atLeast same-byte same-rank numberOf same-bytes same-parts lengthOf is-live part-held headOf".split()}
GIVEN = re.compile(r"docs/(0\d|9\d)-|docs/src/|docs/PORT")


def antt_files():
    return sorted(glob.glob("crates/*/specs/**/*.antt", recursive=True) + glob.glob("crates/*/proofs/**/*.antt", recursive=True))


def bare(text):
    """A text without its comments and without the paths of its use lines."""
    return "\n".join(re.sub(r"\bRattle\.[\w.+'-]+\.(?=\{)|\b(use) [\w.+'-]+ as ", "", code(l)) for l in text.split("\n"))


def code(line):
    return line.split("--")[0] if "--" in line else line


def declarations():
    """Each declared name: 'type' if what it declares is a type or a fact, else 'word'; and the names of functions of specs/."""
    kind, functions = {}, set()
    for path in antt_files():
        text = open(path).read()
        lines = text.split("\n")
        for i, line in enumerate(lines):
            l = code(line)
            m = re.match(rf"\s*(?:pub )?(?:abbrev |unfoldable )?(?:pub )?(data |record )?((?:{WORD}\s+)*?{WORD})\s*((?:[{{(].*?[)}}]\s*)*)(?<![:]):(?:\s|$)(.*)", l)
            if not m or l.strip().startswith(("use ", "--", "λ", "(", "{", "[", "|", "→", ",")):
                continue
            names = m.group(2).split()
            if any(n in STOP or n.startswith(("→", "=", "×", "⊎", "λ")) for n in names):
                continue
            rest = m.group(4)
            k = i + 1
            while k < len(lines) and re.match(r"\s+(→|\(|\{)", code(lines[k])) and not rest.strip().endswith(("=", "where")):
                rest += " " + code(lines[k]).strip()
                k += 1
            made = rest.split("=")[0] if " = " in rest else rest
            is_type = bool(m.group(1)) or bool(re.search(r"(→\s*)?Type [01]\s*(where)?\s*$", made.strip()))
            for n in names:
                if re.search(r"[.·]", n) or n == "_" or "Need" in n or len(n) < 2:
                    continue
                if "tie." in rest or "goal." in rest or "statement" in rest:
                    continue
                kind[n] = "type" if is_type or kind.get(n) == "type" else "word"
                if "/specs/" in path and not is_type:
                    functions.add(n)
    return kind, functions


def snake(name, functions):
    words = re.sub(r"(?<=[a-z0-9])(?=[A-Z])", "_", name)
    if re.match(r"[A-Z]", words):
        words = re.sub(r"(?<=[A-Z0-9])(?=[A-Z][a-z])", "_", words)
    parts = [p if not re.match(r"[A-Z][a-z]*(_|$)|[A-Z]\d", p) and not re.search(r"_[A-Z]", p) else p.lower() for p in words.split("-")]
    out = parts[0]
    for p in parts[1:]:
        head = out.split("-")[-1]
        joins = head in functions | STD and p in STD
        out += ("-" if joins else "_") + p
    return out


def main():
    trial = "--try" in sys.argv
    if "--use" in sys.argv:
        with open(sys.argv[sys.argv.index("--use") + 1]) as f:
            return turn(dict(line.split() for line in f if line.strip()))
    kind, functions = declarations()
    functions = {snake(f, set()) for f in functions} | functions
    table = {}
    for name, what in kind.items():
        if what == "type":
            continue
        new = BETTER.get(name) or snake(name, functions)
        if new != name:
            table[name] = new
    # a lemma that would have its function's name gets `_lem`
    made = collections.Counter(table.values()) + collections.Counter(n for n in kind if n not in table)
    for name in list(table):
        if name not in BETTER and made[table[name]] > 1 and "-" in name and any(snake(f, functions) == table[name] for f in functions if f != name and "-" not in f):
            table[name] += "_lem"
    # names that would fall together
    tokens = {p: set(TOKEN.findall(bare(open(p).read()))) for p in antt_files()}
    clauses = {p: set(t for line in clause_lines(open(p).read()) for t in TOKEN.findall(line)) for p in sorted(glob.glob("crates/*/src/**/*.rt", recursive=True))}
    for p, t in clauses.items():
        text = open(p).read()
        clauses[p] = t | set(re.findall(r"\b(\w+): ", text))
    back = collections.defaultdict(set)
    for a, b in table.items():
        back[b].add(a)
    kept = {}
    rust = set()
    for p in glob.glob("crates/*/src/**/*.rt", recursive=True):
        text = open(p).read()
        rust |= set(re.findall(r"(?m)^\s+([A-Z]\w*)(?:\(.*\)|\s*\{.*\})?,\s*$", text)) | set(re.findall(r"\b(?:struct|enum|type) (\w+)", text))
    for a, b in sorted(table.items()):
        if a in rust:
            kept[a] = "it is the name of a variant or a type of src/"
            continue
        if b in RESERVED:
            kept[a] = f"`{b}` is a word of the language"
            continue
        for p, t in list(tokens.items()) + list(clauses.items()):
            if a in t and b in t:
                kept[a] = f"{p} has `{b}` too"
                break
            others = [o for o in back[b] if o != a and o in t]
            if a in t and others:
                kept[a] = f"{p} has {', '.join('`' + o + '`' for o in others)}, which would be `{b}` too"
                break
    for a, why in kept.items():
        print(f"kept: {a}: {why}")
        table.pop(a)
    print(f"{len(table)} names change, {len(kept)} are kept")
    if trial:
        for a, b in sorted(table.items()):
            print(f"{a} -> {b}")
        return
    if "--table" in sys.argv:
        with open(sys.argv[sys.argv.index("--table") + 1], "w") as f:
            f.writelines(f"{a} {b}\n" for a, b in sorted(table.items()))
    turn(table)


def turn(table):
    swap = lambda text, rows=table: TOKEN.sub(lambda m: rows.get(m.group(0), m.group(0)), text)
    odd = {a: b for a, b in table.items() if "-" in a or re.match(r"[a-z]+\w*[A-Z]", a)}
    for p in antt_files():
        text = open(p).read()
        theirs = lent(text)
        own = IN_CRATE.get(p.split("/")[1], {})
        rows, strange = ({a: b for a, b in (t | {a: b for a, b in own.items() if a in text}).items() if a not in theirs} for t in (table, odd))
        write(p, "\n".join(comments(line, lambda x, r=rows: swap(x, r), strange) for line in text.split("\n")))
    for p in sorted(glob.glob("crates/*/src/**/*.rt", recursive=True)):
        text = open(p).read()
        mark = set(clause_spans(text))
        rows = table | IN_CRATE.get(p.split("/")[1], {})
        write(p, "\n".join(swap(l, rows) if i in mark else swap(l, odd) if l.strip().startswith("//") else l for i, l in enumerate(text.split("\n"))))
    for p in glob.glob("crates/*/must-fail/*.edit"):
        lines, out, to_rt = open(p).read().split("\n"), [], False
        for l in lines:
            if l.startswith("file:"):
                to_rt = l.strip().endswith(".rt")
            rows = table | IN_CRATE.get(p.split("/")[1], {})
            out.append(l if l.startswith("file:") else swap(l, rows) if not to_rt or re.search(r"requires|ensures|ghost", l) else swap(l, odd))
        write(p, "\n".join(out))
    for p in ["README.md"] + glob.glob("docs/*.md") + glob.glob("*/README.md"):
        if os.path.exists(p) and not GIVEN.match(p):
            write(p, swap(open(p).read(), odd | PAGES))


def lent(text):
    """The names that a file brings in from a library: they are not ours there."""
    out = set()
    for m in re.finditer(r"(?m)^(?:ghost )?use ([\w.+'-]+)\.\{([^}]*)\}", text):
        top = m.group(1).split(".")
        if top[0] != "Rattle" or not os.path.isdir(os.path.join("crates", top[1])):
            out |= {n.strip().split(" as ")[0] for n in m.group(2).split(",")}
    return out


def comments(line, swap, odd):
    k = line.find("--")
    if k < 0 or (k > 0 and not line[k - 1].isspace()):
        return swap(line)
    return swap(line[:k]) + swap(line[k:], odd)


def clause_spans(text):
    """The numbers of the lines that are ghost use items, ghost fields or clauses of a contract."""
    out, inside, depth = [], False, 0
    for i, l in enumerate(text.split("\n")):
        if not inside and re.match(r"\s*(ghost use|pub ghost use|ghost |pub ghost |requires|ensures|decreases|invariant)\b", l):
            inside, depth = True, 0
        if inside:
            out.append(i)
            depth += l.count("{") - l.count("}")
            if depth <= 0:
                inside = False
    return out


def clause_lines(text):
    lines = text.split("\n")
    return [lines[i] for i in clause_spans(text)]


def write(path, text):
    if open(path).read() != text:
        open(path, "w").write(text)


main()
