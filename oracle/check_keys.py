"""Which 32 bytes are a key: the curve stand-in against plain integers.

`Identifier::from_bytes` (docs/src, identifier.rs) refuses what is no point, what is not the canonical spelling
of one, and points of small order. It runs over standins/ed25519_dalek, so that stand-in decides which keys the
rest of the oracle calls valid. Here the same three questions are answered from RFC 8032, 5.1.3, with Python's
integers, and both are asked about the same byte strings.

    python3 check_keys.py target/quick/codec
"""
import hashlib
import random
import subprocess
import sys

P = 2**255 - 19
D = -121665 * pow(121666, -1, P) % P
ORDER = 2**252 + 27742317777372353535851937790883648493
IDENTITY = (0, 1)


def root(a):
    r = pow(a, (P + 3) // 8, P)
    if r * r % P != a:
        r = r * pow(2, (P - 1) // 4, P) % P
    return r if r * r % P == a else None


def x_of(y):
    return root((y * y - 1) * pow(D * y * y + 1, -1, P) % P)


def add(a, b):
    (x1, y1), (x2, y2) = a, b
    k = D * x1 * x2 * y1 * y2 % P
    return (x1 * y2 + x2 * y1) * pow(1 + k, -1, P) % P, (y1 * y2 + x1 * x2) * pow(1 - k, -1, P) % P


def times(n, point):
    out = IDENTITY
    while n:
        if n & 1:
            out = add(out, point)
        point = add(point, point)
        n >>= 1
    return out


def spelled(y, sign):
    return (y | sign << 255).to_bytes(32, "little")


def verdict(key):
    n = int.from_bytes(key, "little")
    sign, y = n >> 255, n & (2**255 - 1)
    x = x_of(y % P)
    if x is None:
        return "Err(NotAPoint)"
    if y >= P or x == 0 and sign:
        return "Err(NonCanonical)"
    return "Err(SmallOrder)" if times(8, (P - x if x % 2 != sign else x, y)) == IDENTITY else "Ok(())"


def public_key(secret):
    """RFC 8032, 5.1.5."""
    low = bytearray(hashlib.sha512(secret).digest()[:32])
    low[0] &= 248
    low[31] = low[31] & 127 | 64
    y = 4 * pow(5, -1, P) % P
    x = x_of(y)
    x, y = times(int.from_bytes(low, "little"), (x if x % 2 == 0 else P - x, y))
    return spelled(y, x % 2)


def small_order_points():
    """The eight: whatever is left of a point when the large prime order is multiplied away."""
    seen, y = set(), 2
    while len(seen) < 8:
        y += 1
        x = x_of(y)
        if x is not None:
            seen |= {times(ORDER, (x, y)), times(ORDER, (P - x, y))}
    return seen


def cases():
    random.seed(1)
    yield from (random.randbytes(32) for _ in range(600))
    yield from (bytes([b]) * 32 for b in range(0, 256, 5))
    for sign in (0, 1):
        # around 0 and around p, where spellings stop being canonical
        yield from (spelled(y, sign) for y in [*range(20), *range(P - 20, 2**255)])
        for _, y in small_order_points():
            yield from (spelled(v, sign) for v in (y, y + P) if v < 2**255)


def main():
    real = [public_key(bytes([i]) * 32) for i in range(16)]
    # RFC 8032, 7.1, TEST 1
    secret = bytes.fromhex("9d61b19deffd5a60ba844af492ec2cc44449c5697b326919703bac031cae7f60")
    assert public_key(secret).hex() == "d75a980182b10ab7d54bfed3c964073a0ee172f3daa62325af021a68f707511a"
    assert all(verdict(key) == "Ok(())" for key in real)
    keys = [*cases(), *real]
    lines = "".join(key.hex() + "\n" for key in keys)
    rust = subprocess.run([sys.argv[1], "keys"], input=lines, capture_output=True, text=True, check=True)
    said = rust.stdout.split("\n")[:-1]
    assert len(said) == len(keys)
    tally, differ = {}, 0
    for key, rust in zip(keys, said):
        plain = verdict(key)
        tally[plain] = tally.get(plain, 0) + 1
        if rust != plain:
            differ += 1
            print("DISAGREEMENT", key.hex(), "rust", rust, "integers", plain)
    assert len(tally) == 4, "each answer is met"
    counts = ", ".join(f"{answer} {n}" for answer, n in sorted(tally.items()))
    print(f"check_keys: {len(keys)} byte strings, {differ} differ ({counts})")
    sys.exit(differ > 0)


main()
