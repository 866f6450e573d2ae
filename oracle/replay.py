"""Replays vector files (VECTORS.md) without Rust: a third reading of document 01, in dictionaries.

Every line of the files named, or of standard input, is worked out again and compared. Levels are 0 for none,
then 1 to 4. Stops at the first line that differs.

    python3 replay.py [FILE..]
"""
import sys

LEVEL = {"L": 1, "R": 2, "E": 3, "A": 4}
LETTER = ".LREA"
ADMIN = 4


def derive(keys, edges, excluded=()):
    """D1 to D3 until nothing rises: (subject, key) to level. An edge is issuer, audience, subject, level."""
    level = {(r, r): ADMIN for r in keys if r not in excluded}
    while True:
        risen = {}

        def raise_to(pair, to):
            if to > max(level.get(pair, 0), risen.get(pair, 0)):
                risen[pair] = to

        for issuer, audience, subject, passed in edges:
            if audience not in excluded:
                raise_to((subject, audience), min(level.get((subject, issuer), 0), passed))
        over = {}
        for (r, x), l in level.items():
            over.setdefault(r, []).append((x, l))
        for r, row in over.items():
            for u, l in row:
                if u != r:
                    for x, m in over.get(u, ()):
                        raise_to((r, x), min(l, m))
        if not risen:
            return level
        level.update(risen)


class Evaluation:
    """Delegations: digest to (issuer, audience, subject, level, payload). Revocations: to (issuer, target)."""

    def __init__(self, keys, delegations, revocations):
        self.keys, self.delegations = keys, delegations
        self.power = {h: d[3] for h, d in delegations.items()}
        self.positive = derive(keys, self.edges(self.power))
        self.subjects = {d[2] for d in delegations.values()}
        self.excluded = {}
        audience_revoked = set()
        for h, (_, audience, subject, _, _) in delegations.items():
            revokers = {issuer for issuer, target in revocations.values() if target == h}
            reach = {n for n in self.subjects for k in revokers if self.positive.get((n, k)) == ADMIN}
            if any((subject, k) in self.positive for k in revokers | reach):
                self.excluded[h] = revokers | reach
                if audience in revokers:
                    audience_revoked.add(h)

        usable = {h for h in delegations if h not in self.excluded}
        while True:
            found = {h for h in self.excluded.keys() - usable - audience_revoked if self.stands(h, usable)}
            if not found:
                break
            usable |= found
        base = derive(keys, self.edges({h: self.power[h] for h in usable}))
        self.live = {h for h in usable if h in self.excluded or self.issuers(h, base)}

        grade = {h: 1 if h in self.excluded else self.power[h] for h in self.live}
        while True:
            risen = dict(grade)
            for h in self.live & self.excluded.keys():
                level = self.issuers(h, derive(keys, self.edges(grade), self.excluded[h]))
                risen[h] = max(1, min(self.power[h], level))
            if risen == grade:
                break
            grade = risen
        self.effective = derive(keys, self.edges(grade))
        self.conveyed = {
            h: grade[h] if h in self.excluded else min(grade[h], self.issuers(h, self.effective))
            for h in self.live
        }

    def edges(self, grade):
        return [(*self.delegations[h][:3], level) for h, level in grade.items()]

    def issuers(self, h, levels):
        issuer, _, subject, _, _ = self.delegations[h]
        return levels.get((subject, issuer), 0)

    def stands(self, h, usable):
        issuer, _, subject, _, _ = self.delegations[h]
        out = self.excluded[h]
        if issuer in out or subject in out:
            return False
        return self.issuers(h, derive(self.keys, self.edges({x: self.power[x] for x in usable}), out)) > 0


def marks(every, some):
    return "".join("01"[x in some] for x in every) or "-"


class Store:
    def __init__(self, name):
        self.name, self.delegations, self.revocations, self.version = name, {}, {}, 0

    def insert(self, fields):
        kind, digest, issuer, content, added = fields
        table = self.delegations if kind == "d" else self.revocations
        new = digest not in table
        assert new == (added == "1"), (self.name, fields)
        if not new:
            return
        self.version += 1
        if kind == "r":
            table[digest] = (issuer, content)
            return
        assert (len(content), content[130:132]) in ((132, "00"), (196, "01"))
        level = LEVEL[chr(int(content[128:130], 16))]
        table[digest] = (issuer, content[:64], content[64:128], level, content)

    def block(self, got):
        """The lines from `a` to before `z`, as document 01 has them; which keys and digests are asked about
        is read from the lines themselves."""
        asked = [g[1] for g in got if g[0] == "K"]
        unheld = [g[1] for g in got if g[0] == "N"]
        assert asked == sorted(asked) and not any(h in self.delegations for h in unheld)
        e = Evaluation(asked, self.delegations, self.revocations)
        ds, rs = sorted(self.delegations), sorted(self.revocations)

        def naming(h):
            return marks(rs, {r for r in rs if self.revocations[r][1] == h})

        yield ["a", *map(str, (self.version, len(ds) + len(rs), len(ds), len(rs)))]
        for h in ds:
            issuer, _, _, _, payload = self.delegations[h]
            yield ["D", h, issuer, payload, "01"[h in e.live], LETTER[e.conveyed.get(h, 0)], naming(h)]
        yield from (["R", r, *self.revocations[r]] for r in rs)
        yield from (["N", h, naming(h)] for h in unheld)
        for s in asked:
            inside = {h for h in ds if (s, self.delegations[h][2]) in e.positive}
            positive, effective = (
                "".join(LETTER[levels.get((s, x), 0)] for x in asked) for levels in (e.positive, e.effective)
            )
            named = {r for r in rs if self.revocations[r][1] in inside}
            yield ["K", s, "01"[s in e.subjects], positive, effective, marks(ds, inside), marks(rs, named)]
            for j, x in enumerate(asked):
                to = {h for h in ds if self.delegations[h][1:3] == (x, s)}
                if to:
                    yield ["T", str(j), marks(ds, to)]


def payload_reader(payload):
    if len(payload) < 66:
        return ["2", "0"]
    power, tag = chr(payload[64]), payload[65]
    if power not in LEVEL:
        return ["4", str(payload[64])]
    if tag == 0:
        return ["3", "0"] if len(payload) > 66 else ["0", power, "-"]
    if tag == 1:
        if len(payload) != 98:
            return ["2" if len(payload) < 98 else "3", "0"]
        return ["0", power, payload[66:].hex()]
    return ["4", str(tag)]


def replay(lines):
    """How many stores, blocks and payloads agree."""
    stores = blocks = payloads = 0
    lines = (line.split() for line in lines)
    for fields in lines:
        if fields[0] == "s":
            store = Store(fields[1])
            stores += 1
        elif fields[0] in "dr":
            store.insert(fields)
        elif fields[0] == "a":
            got = [fields, *iter(lambda: next(lines), ["z"])]
            want = list(store.block(got))
            for g, w in zip(got, want):
                assert g == w, (store.name, "file", g, "document", w)
            assert len(got) == len(want), (store.name, "lines of a block")
            blocks += 1
        elif fields[0] == "p":
            want = payload_reader(bytes.fromhex(fields[1].replace("-", "")))
            assert fields[2:] == want, ("payload", fields, "document", want)
            payloads += 1
        else:
            raise ValueError(f"no such line: {fields}")
    return stores, blocks, payloads


def main():
    total = (0, 0, 0)
    for file in map(open, sys.argv[1:]) if sys.argv[1:] else [sys.stdin]:
        total = tuple(map(sum, zip(total, replay(file))))
    print("replay: {} stores, {} blocks of answers, {} payloads, 0 differ".format(*total))


main()
