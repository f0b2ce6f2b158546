#!/usr/bin/env python3
"""A second computation of roots, audit paths and proofs of chunks and of ranges. It was written from docs/FORMATS.md alone, with Python's hashlib.

    tools/roots.py      compares itself with the page's worked root and with the constants of the tests, also of the Rust crate and of the bindings,
                        and checks random proofs

The check of a path goes from the leaf up, as the algorithm of RFC 9162, section 2.1.3.2. The library's goes from the root down. The siblings of a
range are found level by level, from the leaves up, and the check of a range puts the leaves and the siblings in a row and joins neighbours. The
library's are recursions from the root down.
"""

import itertools
import random
import re
from hashlib import sha256

from replay import TOP, report

PAGE = TOP / "docs/FORMATS.md"
CONSTANTS = [TOP / f"crates/{crate}/src/known.rt" for crate in ("conformance_authenticated", "conformance_authenticated_history")]
RUST_TESTS = TOP / "native/tests/roots.rs"
RUST_TESTS_OF_VERSIONS = TOP / "native/tests/kept_roots.rs"
CONSTANT = re.compile(r"pub const (\w+): \[u8; 32\] = \[([\d,\s]*)\];")
# The tests and the examples of the bindings that have roots and proofs as digits.
TESTS_WITH_DIGITS = ["bindings/c/test/calls.c", "bindings/rust/tests/proofs.rs", "bindings/rust/src/proof.rs", "bindings/python/tests/test_proofs.py"]
EXAMPLES_WITH_DIGITS = ["bindings/c/examples/light_client.c", "bindings/rust/examples/light_client.rs", "bindings/python/examples/light_client.py"]
LEAVES = ["", "00", "10", "2021", "3031", "40414243", "5051525354555657", "606162636465666768696a6b6c6d6e6f"]
ROUNDS = 300


def digest(data):
    return sha256(data).digest()


def be64(number):
    return number.to_bytes(8, "big")


def leaf(data):
    return digest(b"\x00" + data)


def node(left, right):
    return digest(b"\x01" + left + right)


def split(n):
    """The largest power of two below n, which is at least 2."""
    return 1 << ((n - 1).bit_length() - 1)


def tree(digests):
    if not digests:
        return digest(b"")
    if len(digests) == 1:
        return digests[0]
    k = split(len(digests))
    return node(tree(digests[:k]), tree(digests[k:]))


def audit_path(index, digests):
    if len(digests) == 1:
        return []
    k = split(len(digests))
    if index < k:
        return [*audit_path(index, digests[:k]), tree(digests[k:])]
    return [*audit_path(index - k, digests[k:]), tree(digests[:k])]


def climbed(index, n, start, path):
    """The digest of the tree of n leaves, from the digest of a leaf and its path. None if the path is too long or too short."""
    place, last, found = index, n - 1, start
    for beside in path:
        if last == 0:
            return None
        if place & 1 or place == last:
            found = node(beside, found)
            while place and not place & 1:
                place, last = place >> 1, last >> 1
        else:
            found = node(found, beside)
        place, last = place >> 1, last >> 1
    return found if last == 0 else None


def root(width, length, pruned, top):
    return digest(b"\x02" + be64(width) + be64(length) + be64(pruned) + top)


def verifies(wanted, width, length, pruned, index, chunk, path):
    n = -(-length // (8 * width))
    if index >= n:
        return False
    top = climbed(index, n, leaf(chunk), path)
    return top is not None and root(width, length, pruned, top) == wanted


def encoding(width, length, pruned, index, chunk, path):
    return b"".join(map(be64, (width, length, pruned, index, len(path)))) + chunk + b"".join(path)


def read(width, data):
    """The proof that bytes are the encoding of, or the name of the first error."""
    if len(data) < 40:
        return "Short"
    found, length, pruned, index, count = (int.from_bytes(data[at : at + 8], "big") for at in range(0, 40, 8))
    if found != width:
        return "Width"
    if count > 64:
        return "TooManyDigests"
    if len(data) != 40 + width + 32 * count:
        return "Length"
    path = [data[at : at + 32] for at in range(40 + width, len(data), 32)]
    return width, length, pruned, index, data[40 : 40 + width], path


def levels(digests):
    """The nodes of each level, from the leaves up: the first leaf of each, the leaf after its last, and its digest. A last node without a neighbour
    is in the next level too, as it is."""
    row = [(at, at + 1, one) for at, one in enumerate(digests)]
    found = [row]
    while len(row) > 1:
        pairs = [(left[0], right[1], node(left[2], right[2])) for left, right in zip(row[::2], row[1::2])]
        row = pairs + row[len(pairs) * 2 :]
        found.append(row)
    return found


def range_siblings(first, count, digests):
    """The digests of the nodes without a leaf of the range whose parent has one, from left to right."""
    beside = {}
    for below, above in itertools.pairwise(levels(digests)):
        for start, end, one in below:
            parent = next((a, b) for a, b, _ in above if a <= start and end <= b)
            touches = [a < first + count and first < b for a, b in ((start, end), parent)]
            if touches == [False, True]:
                beside[start, end] = one
    return [one for _, one in sorted(beside.items())]


def blocks(start, end, n):
    """The nodes that cover the leaves from start to end, beside a range: the first leaf of each, and the leaf after its last. The tree has n leaves."""
    while start < end:
        size = start & -start if start else 1 << n.bit_length()
        while start + size > end and not (end == n and start + size >= n):
            size >>= 1
        yield start, min(start + size, n)
        start += size


def range_tree(first, n, chunks, siblings):
    """The digest of the tree of n leaves, from the chunks of a range and its siblings. None if these are too many or too few."""
    end = first + len(chunks)
    places = [*blocks(0, first, n)], [*blocks(end, n, n)]
    if len(siblings) != len(places[0]) + len(places[1]):
        return None
    left, right = siblings[: len(places[0])], siblings[len(places[0]) :]
    row = [(*place, one) for place, one in zip(places[0], left)]
    row += [(first + at, first + at + 1, leaf(chunk)) for at, chunk in enumerate(chunks)]
    row += [(*place, one) for place, one in zip(places[1], right)]
    while len(row) > 1:
        # The first node that is the left half of its parent and whose neighbour is the right half.
        at = next(k for k in range(len(row) - 1) if is_pair(row[k], row[k + 1], n))
        (start, _, one), (_, after, two) = row[at : at + 2]
        row[at : at + 2] = [(start, after, node(one, two))]
    return row[0][2]


def is_pair(left, right, n):
    size = left[1] - left[0]
    return size & (size - 1) == 0 and left[0] % (2 * size) == 0 and (right[1] - right[0] == size or right[1] == n and right[1] - right[0] <= size)


def range_verifies(wanted, width, length, pruned, first, chunks, siblings):
    n = -(-length // (8 * width))
    if not chunks or first + len(chunks) > n:
        return False
    top = range_tree(first, n, chunks, siblings)
    return top is not None and root(width, length, pruned, top) == wanted


def range_encoding(width, length, pruned, first, chunks, siblings):
    return b"".join(map(be64, (width, length, pruned, first, len(chunks), len(siblings)))) + b"".join(chunks) + b"".join(siblings)


def read_range(width, data):
    """The proof of a range that bytes are the encoding of, or the name of the first error."""
    if len(data) < 48:
        return "Short"
    found, length, pruned, first, count, digests = (int.from_bytes(data[at : at + 8], "big") for at in range(0, 48, 8))
    if found != width:
        return "Width"
    if digests > 128:
        return "TooManyDigests"
    if len(data) != 48 + width * count + 32 * digests:
        return "Length"
    middle = 48 + width * count
    chunks = [data[at : at + width] for at in range(48, middle, width)]
    return width, length, pruned, first, chunks, [data[at : at + 32] for at in range(middle, len(data), 32)]


def nodes(n):
    return 2 * n - n.bit_count()


def stored(digests):
    """The digests of the complete subtrees, each appended when its last leaf is."""
    found, waiting = [], []  # waiting: the complete subtrees that have no sibling yet
    for one in digests:
        found.append(one)
        waiting.append((0, one))
        while len(waiting) > 1 and waiting[-1][0] == waiting[-2][0]:
            (level, right), (_, left) = waiting.pop(), waiting.pop()
            found.append(node(left, right))
            waiting.append((level + 1, found[-1]))
    return found


def constants():
    """The values that the constants of the tests have to have."""
    eight = [leaf(bytes.fromhex(text)) for text in LEAVES]
    five = [leaf(bytes([k]) * 4) for k in range(5)]
    worked = [leaf(bytes.fromhex(text)) for text in ("01", "80", "0f")]
    values = {"NOTHING": tree([]), "LAST_FOUR": tree(eight[4:]), "FIVE_CHUNKS": tree(five)}
    values |= {f"TREE_{n}": tree(eight[:n]) for n in range(1, 9)}
    values |= {f"TREE_{n}_REPLACED_{index}": tree([*eight[:index], leaf(b"other"), *eight[index + 1 : n]]) for index, n in ((5, 8), (6, 7))}
    values |= {f"PATH_{index}_OF_{n}_{k}": one for index, n in ((5, 8), (6, 7)) for k, one in enumerate(audit_path(index, eight[:n]))}
    values |= {f"RANGE_2_TO_7_OF_8_{k}": one for k, one in enumerate(range_siblings(2, 5, eight))}
    values |= {f"PATH_CHUNK_2_{k}": one for k, one in enumerate(audit_path(2, five))}
    values |= {f"ROOT_PRUNED_{pruned}": root(4, 150, pruned, tree(five)) for pruned in (0, 2, 4)}
    values |= {"WORKED_0": worked[0], "WORKED_2": worked[2], "WORKED_ROOT": root(1, 20, 1, tree(worked))}
    return values | constants_of_versions()


def constants_of_versions():
    """The values that the constants of the tests of kept versions have to have. Each whole chunk has its index as every byte."""
    four = [leaf(bytes([k]) * 4) for k in range(3)] + [leaf(bytes([1, 0, 0, 0]))]
    values = {"NO_BITS": root(4, 0, 0, tree([])), "ONE_CHUNK": root(4, 32, 0, tree(four[:1])), "TWO_CHUNKS": root(4, 64, 0, tree(four[:2]))}
    values |= {"VERSION_1": root(4, 96, 0, tree(four[:3])), "VERSION_2": root(4, 97, 0, tree(four)), "VERSION_5": root(4, 95, 1, tree(four[:3]))}
    paths = {"TWO_CHUNKS_PATH_0": (0, 2), "VERSION_2_PATH_0": (0, 4), "VERSION_5_PATH_2": (2, 3)}
    return values | {f"{name}_{k}": one for name, (index, n) in paths.items() for k, one in enumerate(audit_path(index, four[:n]))}


def constant_cases():
    values = constants()
    for name, numbers in CONSTANT.findall("".join(path.read_text() for path in CONSTANTS)):
        found = bytes(int(number) for number in re.findall(r"\d+", numbers))
        wanted = values.pop(name, None)
        yield name, None if found == wanted else "has another value"
    yield "constants", f"there is no {' '.join(values)}" if values else None
    hashed = [(RUST_TESTS, "OF_MANY", digest_of_many()), (RUST_TESTS, "RANGES_OF_MANY", digest_of_ranges())]
    for path, name, wanted in [*hashed, (RUST_TESTS_OF_VERSIONS, "OF_VERSIONS", digest_of_versions())]:
        yield f"{name} of native/tests/{path.name}", None if f'const {name}: &str = "{wanted}";' in path.read_text() else f"it is not {wanted}"


def digest_of_many():
    """The digest of the roots and the encodings of proofs with which native/tests/roots.rs compares those of the Rust crate.

    For each length from 0 to 120 there is a bitmap with chunks of three bytes, in which bit k is set if k * k % 7 < 3. Each has its root, its root
    with half of the complete chunks pruned, and then the proofs of its chunks against this one.
    """
    hashed = sha256()
    for length in range(121):
        number = sum(1 << k for k in range(length) if k * k % 7 < 3)
        count, pruned = -(-length // 24), length // 48
        data = number.to_bytes(3 * count, "little")
        chunks = [data[at : at + 3] for at in range(0, len(data), 3)]
        digests = [leaf(chunk) for chunk in chunks]
        hashed.update(root(3, length, 0, tree(digests)) + root(3, length, pruned, tree(digests)))
        for index, chunk in enumerate(chunks):
            hashed.update(encoding(3, length, pruned, index, chunk, audit_path(index, digests)))
    return hashed.hexdigest()


def digest_of_ranges():
    """The digest of the encodings of proofs of ranges with which native/tests/roots.rs compares those of the Rust crate.

    The bitmaps are those of `digest_of_many`, with half of the complete chunks pruned. Each has the proofs of all its ranges, by their first chunk
    and then by their end.
    """
    hashed = sha256()
    for length in range(121):
        number = sum(1 << k for k in range(length) if k * k % 7 < 3)
        data = number.to_bytes(3 * -(-length // 24), "little")
        chunks = [data[at : at + 3] for at in range(0, len(data), 3)]
        digests = [leaf(chunk) for chunk in chunks]
        for first, end in itertools.combinations(range(len(chunks) + 1), 2):
            siblings = range_siblings(first, end - first, digests)
            hashed.update(range_encoding(3, length, length // 48, first, chunks[first:end], siblings))
    return hashed.hexdigest()


def chunks_of(bits):
    """The chunks of three bytes of a list of bits, zero past its end."""
    data = sum(1 << k for k, bit in enumerate(bits) if bit).to_bytes(3 * -(-len(bits) // 24), "little")
    return [data[at : at + 3] for at in range(0, len(data), 3)]


def edited(bits, pruned, k):
    """The bits and the number of pruned chunks after the edits of version k, each of which depends on k alone."""
    bits = bits[: len(bits) - min(7 * (k % 4), len(bits) - 24 * pruned)]
    bits += [place * k % 7 < 3 for place in range(len(bits), len(bits) + 11 * (k % 6))]
    if len(bits) > 24 * pruned:
        bits[24 * pruned + 5 * k % (len(bits) - 24 * pruned)] = k % 2 == 1
    if k % 13 == 0:
        # Chunks that the version appends and prunes.
        bits += [True] * 60
    bound = len(bits) if k % 13 == 0 else len(bits) - 40 if k % 5 == 0 else 0
    return bits, max(pruned, bound // 24)


def committed(before, bits, pruned):
    """The digests of the chunks of a version. A pruned chunk keeps its digest, and one that no version has had that of zeros."""
    kept = before + [leaf(bytes(3))] * pruned
    return [kept[at] if at < pruned else leaf(chunk) for at, chunk in enumerate(chunks_of(bits))]


def digest_of_versions():
    """The digest of the roots and the encodings of proofs with which native/tests/kept_roots.rs compares those of the Rust crate.

    A bitmap with chunks of three bytes has the versions 1 to 30, is rewound to version 24, and then has the versions 31 to 40. Those before version
    5 are dropped. Each kept version has its root, then the proofs of its retained chunks, and then the proof of all of them if there are any.
    """
    versions, state = {}, ([], 0, [])
    for k in range(1, 41):
        if k == 31:
            versions = {number: version for number, version in versions.items() if number <= 24}
            state = versions[24]
        bits, pruned = edited(state[0][:], state[1], k)
        state = versions[k] = bits, pruned, committed(state[2], bits, pruned)
    hashed = sha256()
    for number in (number for number in versions if number >= 5):
        bits, pruned, digests = versions[number]
        chunks, shape = chunks_of(bits), (3, len(bits), pruned)
        hashed.update(root(*shape, tree(digests)))
        for index in range(pruned, len(chunks)):
            hashed.update(encoding(*shape, index, chunks[index], audit_path(index, digests)))
        if len(chunks) > pruned:
            hashed.update(range_encoding(*shape, pruned, chunks[pruned:], range_siblings(pruned, len(chunks) - pruned, digests)))
    return hashed.hexdigest()


def worked_cases():
    """Compares the table of the worked root: each digest is that of the bytes and digests beside it."""
    rows = re.findall(r"^\| (\w+) \| (`[^|]*) \| `([0-9a-f]{64})` \|$", PAGE.read_text(), re.MULTILINE)
    yield "the worked root", None if [name for name, *_ in rows] == ["d0", "d1", "d2", "n", "tree", "root"] else "its rows are others"
    known = {}
    for name, parts, found in rows:
        data = b"".join(bytes.fromhex(part.strip("`")) if part.startswith("`") else known[part] for part in parts.split(", "))
        known[name] = bytes.fromhex(found)
        yield f"worked {name}", None if digest(data) == known[name] else digest(data).hex()


def worked_range_cases():
    """Compares the worked bytes of a proof of a range with the proof, which verifies against the worked root."""
    _, _, text = PAGE.read_text().partition("### A worked range\n")
    found = b"".join(bytes.fromhex(part) for part in re.findall(r"^\| \d+ \| `([0-9a-f]+)` \|", text.split("\n## ")[0], re.MULTILINE))
    chunks = [bytes.fromhex(one) for one in ("01", "80", "0f")]
    digests = [leaf(chunk) for chunk in chunks]
    proof = (1, 20, 1, 1, chunks[1:], range_siblings(1, 2, digests))
    yield "the worked range", None if found == range_encoding(*proof) else f"its bytes are {range_encoding(*proof).hex()}"
    yield "the worked range verifies", None if range_verifies(root(1, 20, 1, tree(digests)), *proof) else "it does not"


def worked_digits():
    """The worked root, and the proofs of its chunk 2 and of its chunks 1 and 2."""
    chunks = [bytes.fromhex(one) for one in ("01", "80", "0f")]
    digests = [leaf(chunk) for chunk in chunks]
    yield "the worked root", root(1, 20, 1, tree(digests))
    yield "the proof of chunk 2", encoding(1, 20, 1, 2, chunks[2], audit_path(2, digests))
    yield "the proof of the chunks 1 and 2", range_encoding(1, 20, 1, 1, chunks[1:], range_siblings(1, 2, digests))


def digits_of_the_light_client():
    """The roots and the proofs of the example of a light client. Of 200 validators those from 50 to 149 are active at height 1, and at height 2 all of
    these but 100. Chunks have eight bytes."""
    for height in (1, 2):
        active = sum(1 << k for k in range(50, 150) if (height, k) != (2, 100))
        data = active.to_bytes(32, "little")
        chunks = [data[at : at + 8] for at in range(0, 32, 8)]
        digests = [leaf(chunk) for chunk in chunks]
        yield f"the root of height {height}", root(8, 200, 0, tree(digests))
        yield f"the proof of validator 100 at height {height}", encoding(8, 200, 0, 1, chunks[1], audit_path(1, digests))
        if height == 1:
            yield "the proof of the validators from 64 to 191", range_encoding(8, 200, 0, 1, chunks[1:3], range_siblings(1, 2, digests))


def digit_cases():
    """Whether the tests and the examples of the bindings have these roots and proofs as digits, however these are broken into texts."""
    for paths, values in ((TESTS_WITH_DIGITS, dict(worked_digits())), (EXAMPLES_WITH_DIGITS, dict(digits_of_the_light_client()))):
        for path in paths:
            digits = re.sub(r'["\s,/]', "", (TOP / path).read_text())
            for name, value in values.items():
                yield f"{name} in {path}", None if value.hex() in digits else "it is not there"


def random_cases(rounds, seed="0"):
    """True proofs verify and false ones do not, paths have the right lengths, and each encoding is read again."""
    source = random.Random(seed)
    for number in range(rounds):
        width, bits = source.randint(1, 5), source.randint(1, 400)
        chunks = [source.randbytes(width) for _ in range(-(-bits // (8 * width)))]
        digests = [leaf(chunk) for chunk in chunks]
        pruned, index = source.randint(0, len(chunks)), source.randrange(len(chunks))
        wanted, path = root(width, bits, pruned, tree(digests)), audit_path(index, digests)
        proof = (width, bits, pruned, index, chunks[index], path)
        other = bytes([chunks[index][0] ^ 1]) + chunks[index][1:]
        false = [
            (width, bits + 1, *proof[2:]), (width, bits, pruned + 1, *proof[3:]), (width, bits, pruned, index, other, path),
            (width, bits, pruned, index, chunks[index], [*path, wanted]), (width, bits, pruned, index, chunks[index], path[:-1] if path else [wanted]),
        ]
        yield from random_ranges(source, number, chunks, wanted, (width, bits, pruned))
        data, places = encoding(*proof), stored(digests)
        subtree = source.randrange(len(digests).bit_length())
        start = source.randrange(len(digests) >> subtree) << subtree
        yield f"proof {number}", None if verifies(wanted, *proof) else "does not verify"
        yield f"false proofs {number}", None if not any(verifies(wanted, *one) for one in false) else "one verifies"
        yield f"encoding {number}", None if read(width, data) == proof else "is read as another"
        yield f"errors {number}", None if read(width, data[:39]) == "Short" and read(width + 1, data) == "Width" and read(width, data + b"\0") == "Length" else "others"
        yield f"stored {number}", None if len(places) == nodes(len(digests)) else f"{len(places)} digests"
        at = nodes(start) + 2 * (1 << subtree) - 2
        yield f"place {number}", None if places[at] == tree(digests[start : start + (1 << subtree)]) else f"another digest is at {at}"


def random_ranges(source, number, chunks, wanted, shape):
    """A true proof of a range verifies, and false ones do not. A range of one chunk has the digests of its path."""
    digests = [leaf(chunk) for chunk in chunks]
    first = source.randrange(len(chunks))
    count = source.randint(1, len(chunks) - first)
    part, siblings = chunks[first : first + count], range_siblings(first, count, digests)
    proof, data = (*shape, first, part, siblings), range_encoding(*shape, first, part, siblings)
    other = bytes([part[-1][0] ^ 1]) + part[-1][1:]
    false = [
        (shape[0], shape[1] + 1, *proof[2:]), (*shape[:2], shape[2] + 1, *proof[3:]), (*shape, first + 1, part, siblings),
        (*shape, first, [*part[:-1], other], siblings), (*shape, first, part[1:], siblings), (*shape, first, part[:-1], siblings),
        (*shape, first, part, [*siblings, wanted]), (*shape, first, part, siblings[:-1] or [wanted]),
    ]
    if len(siblings) > 1 and siblings[0] != siblings[1]:
        false.append((*shape, first, part, [siblings[1], siblings[0], *siblings[2:]]))
    yield f"range {number}", None if range_verifies(wanted, *proof) else "does not verify"
    yield f"false ranges {number}", None if not any(range_verifies(wanted, *one) for one in false) else "one verifies"
    yield f"encoding of range {number}", None if read_range(shape[0], data) == proof else "is read as another"
    errors = read_range(shape[0], data[:47]), read_range(shape[0] + 1, data), read_range(shape[0], data + b"\0")
    yield f"errors of range {number}", None if errors == ("Short", "Width", "Length") else "others"
    same = sorted(range_siblings(first, 1, digests)) == sorted(audit_path(first, digests))
    yield f"range of one chunk {number}", None if same else "has other digests"
    yield f"siblings {number}", None if len(siblings) <= 128 else f"{len(siblings)} siblings"


if __name__ == "__main__":
    raise SystemExit(report("roots", [*constant_cases(), *worked_cases(), *worked_range_cases(), *digit_cases(), *random_cases(ROUNDS)], "values"))
