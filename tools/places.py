#!/usr/bin/env python3
"""Counts the places of docs/DESIGN-PASS.md in the crates' src/: python3 tools/places.py [POINT] lists those of a point, or the counts of all.
Run it in a checkout of another commit to count there. It reads text and knows no types: what it finds is looked at by people."""
import collections, glob, re, sys

KEYWORDS = set("fn pub let mut if else match while for in loop return true false self Self struct enum impl use const as ref break continue".split())


def sources():
    for path in sorted(glob.glob("crates/*/src/**/*.rt", recursive=True)):
        with open(path) as file:
            yield path, file.read()


def functions(text):
    """Each function of a file: line, name, head (parameters and clauses), body."""
    for found in re.finditer(r"^( *)(?:pub(?:\(crate\))? )?(?:unsafe )?(?:extern \"C\" )?fn (\w+)", text, re.M):
        indent = found.group(1)
        end = re.compile(r"^" + indent + r"\}", re.M).search(text, found.end())
        whole = text[found.start() : end.end() if end else len(text)]
        opening = re.search(r"(?:^" + indent + r"\{| \{)$", whole, re.M)
        at = opening.end() if opening else len(whole)
        yield text.count("\n", 0, found.start()) + 1, found.group(2), whole[:at], whole[at:]


def blocks(text, kind):
    for found in re.finditer(r"^(?:pub(?:\(crate\))? )?" + kind + r" (\w+)[^;{]*\{(.*?)^\}", text, re.M | re.S):
        yield text.count("\n", 0, found.start()) + 1, found.group(1), found.group(2)


def point1():
    for path, text in sources():
        for line, name, body in blocks(text, "enum"):
            if re.search(r"^ *(Refused|Unknown|Absent|Nothing|Unheld|Wrong|None)\b", body, re.M):
                yield path, line, "enum " + name
        for line, name, body in blocks(text, "struct"):
            for flag in re.findall(r"^ *(?:pub )?(\w+): bool,", body, re.M):
                yield path, line, f"flag {name}.{flag}"
        for found in re.finditer(r"const (N(?:ONE|OTHING|O_\w+))\b", text):
            yield path, text.count("\n", 0, found.start()) + 1, "a number for none: " + found.group(1)
        for line, name, head, body in functions(text):
            ladder = len(re.findall(r"^ *if \w+ == (?:b'.'|\d+|[A-Z_]+) \{\n +return", body, re.M))
            if ladder >= 2:
                yield path, line, f"fn {name}: a ladder of {ladder}"
            if re.search(r"^    n\n\}$|return n;", body, re.M) and "n: usize" in head:
                yield path, line, f"fn {name}: n for none"


def shape(body):
    tokens = re.findall(r"\w+|[^\w\s]", re.sub(r"//.*", "", body))
    return " ".join(t if t in KEYWORDS or not re.match(r"\w", t) else "0" if t[0].isdigit() else "x" for t in tokens), len(tokens)


def point2():
    groups = collections.defaultdict(list)
    for path, text in sources():
        for line, name, head, body in functions(text):
            key, size = shape(body)
            if size >= 24:
                groups[key].append((path, line, "fn " + name))
    for number, places in enumerate((g for g in groups.values() if len(g) > 1), 1):
        for path, line, name in places:
            yield path, line, f"{name} (group {number})"


def point3():
    for path, text in sources():
        for found in re.finditer(r"^ *while (.*) \{$", text, re.M):
            yield path, text.count("\n", 0, found.start()) + 1, "while " + found.group(1)


def point4():
    words = r"same|differ|less|least|most|either|one_if|one_unless|wide|copy_at|put_at|put_item|from_byte|number|beside|byte|rank|at_least|letter|digit"
    for path, text in sources():
        for line, name, head, body in functions(text):
            if re.fullmatch(r"(?:\w+_)?(?:" + words + r")(?:_at)?", name):
                yield path, line, "fn " + name
        for found in re.finditer(r"\bio::\w*(?:write|print|put|say)\w*", text):
            yield path, text.count("\n", 0, found.start()) + 1, found.group(0)


def point5():
    facts = collections.defaultdict(list)
    for path, text in sources():
        for line, name, head, body in functions(text):
            for fact in set(re.findall(r"\b([A-Z]\w+)", " ".join(re.findall(r"requires[^{]*\{(.*)\}$", head, re.M)))):
                facts[fact].append((path, line, name))
            parameters = re.findall(r"\w+: &?", head.split("->")[0])
            if len(parameters) >= 7:
                yield path, line, f"fn {name}: {len(parameters)} parameters"
    for fact, places in sorted(facts.items()):
        if len(places) >= 3:
            for path, line, name in places:
                yield path, line, f"fn {name} requires {fact}"


def point6():
    for path, text in sources():
        for line, name, head, body in functions(text):
            if re.search(r"&(?:'a )?(?:mut )?\[[^\]]*\],\s*(?:limit: usize,\s*)?(?:n|m|k|count|length): usize", head):
                yield path, line, f"fn {name}: a buffer with its length beside"
        for line, name, body in blocks(text, "struct"):
            arrays = re.findall(r"^ *(?:pub )?(\w+): \[", body, re.M)
            if arrays and re.search(r"^ *(?:pub )?(count|length|delegations|revocations): usize", body, re.M):
                yield path, line, f"struct {name}: {len(arrays)} arrays and how much of them counts"


def point7():
    for path, text in sources():
        for found in re.finditer(r"^ *match (what|asked|kind|step|operation)\b.*$", text, re.M):
            yield path, text.count("\n", 0, found.start()) + 1, found.group(0).strip()


def point8():
    for path in sorted(glob.glob("crates/*/proofs/**/Answers.antt", recursive=True)):
        with open(path) as file:
            text = file.read()
        for found in re.finditer(r"^pub ([\w-]+) : goal\.", text, re.M):
            yield path, text.count("\n", 0, found.start()) + 1, found.group(1)


POINTS = [point1, point2, point3, point4, point5, point6, point7, point8]

if __name__ == "__main__":
    if len(sys.argv) > 1:
        for path, line, what in POINTS[int(sys.argv[1]) - 1]():
            print(f"{path}:{line}: {what}")
    else:
        for number, point in enumerate(POINTS, 1):
            print(number, sum(1 for _ in point()))
