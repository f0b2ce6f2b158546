"""The runs of the table `roots`: versions with roots and their proofs, and the same versions without roots.

Its program takes the arguments of the other programs. COMMITS is the number of small commits that follow version 0 before the measured calls.
"""

from typing import NamedTuple

from measure import Call, compare, least, run, timed
from programs import ROOTS

BITS = {1 << 20: "2^20", 1 << 26: "2^26"}
WIDTHS = (8, 32, 64)
WIDTH = 32  # of the bitmaps with many commits
BACK = (1, 10, 1000, 100_000)  # the commits after the version that is read, which are all kept
REWOUND = 1000  # the commits by which a rewind goes back
# The shorter bitmap lacks the last chunk, so its chunks are no whole tree: its root is made of twelve stored digests, and the other's of one.
SHAPES = {"4,096": 1 << 20, "4,095": (1 << 20) - 8 * WIDTH}

# How often a run makes a commit with its root, the same commit alone, and one after which all chunks are hashed again, by the bits of the bitmap.
COMMITTED = {name: dict(zip(BITS, times)) for name, times in
             {"rooted_commit": (200, 200), "plain_commit": (2000, 2000), "rehashed_commit": (20, 2)}.items()}
# The figures of such commits, with their units.
COMMIT = [("commit with its root", "µs"), ("commit without roots", "µs"), ("commit, and all chunks hashed again", "µs"), ("hashes made", ""),
          ("digests that have to change", ""), ("hashes per such digest", ""), ("time that the root adds per hash", "ns")]
COUNTED = 200  # the commits whose hashes are counted
HASHES, VERIFIED, REWINDS = 20_000, 5000, 10
# The calls whose time may grow with the commits: how often a run calls each, and how the table names it.
READS = {
    "prove": (20_000, "`prove` of the last version", "per second"),
    "prove_at": (500, "`prove_at` of version 0", "per second"),
    "root_at": (500, "`root_at` of version 0", "µs"),
}
CALLS = ["rooted_commit", "single_hash", "verify", *READS, "rewind_to", "memory"]


class Figure(NamedTuple):
    call: str  # what is measured
    unit: str
    value: float
    width: int
    bits: int
    commits: int = 0  # those after version 0

    def cell(self):
        """The value with three digits, or with all of those before the point."""
        return f"{self.value:,.0f}" if self.value >= 100 else f"{self.value:.3g}"

    def row(self):
        """The row of roots.csv."""
        return {"call": self.call, "width": self.width, "bits": self.bits, "commits": self.commits, "value": self.cell().replace(",", ""),
                "unit": self.unit}


class Work(NamedTuple):
    call: Call
    width: int
    bits: int
    commits: int

    def words(self):
        """The arguments of the program."""
        return [self.call.name, self.width, self.bits // 8, self.call.times, self.commits]


def work(session, name, times, width, bits, commits=0):
    """A call on a bitmap. If checksums alone are compared, a run calls it less often."""
    return Work(Call(name, max(times // session.divisor, 1)), width, bits, commits)


def in_turn(session, works):
    """The runs of some work, which take turns: a list for each."""
    found = [[] for _ in works]
    for _ in range(session.count):
        for each, runs in zip(works, found):
            runs.append(timed(session.programs[ROOTS], each.words()))
    for each, runs in zip(works, found):
        compare(each.call, each.words(), {ROOTS: runs})
    return found


def seconds(session, works, agree=False):
    """The least seconds per call of some work. If it all has to return the same, ends this process if it does not."""
    found = in_turn(session, works)
    if agree:
        compare(works[0].call, ["different calls or commits"], {" ".join(map(str, each.words())): runs for each, runs in zip(works, found)})
    return [least(runs)[0] / each.call.times for each, runs in zip(works, found)]


def number(session, each):
    """The number that a call prints, which is the same in each run."""
    return int(timed(session.programs[ROOTS], each.words()).checksum)


def committed(session, width, bits):
    """The figures of a commit of 100 flipped bits: its time with its root and without, and the hashes that it takes."""
    works = [work(session, name, times[bits], width, bits) for name, times in COMMITTED.items()]
    rooted, plain, rehashed = seconds(session, works)
    check_roots(session, works[0], works[2])
    counted = [work(session, name, COUNTED, width, bits) for name in ("hashes", "changed_digests")]
    made, changed = (number(session, each) / each.call.times for each in counted)
    values = (rooted * 1e6, plain * 1e6, rehashed * 1e6, made, changed, made / changed, (rooted - plain) / made * 1e9)
    return [Figure(*named, value, width, bits) for named, value in zip(COMMIT, values)]


def check_roots(session, rooted, rehashed):
    """Ends this process if the stored digests and all chunks lead to different roots, after as many commits."""
    as_many = rooted._replace(call=rooted.call._replace(times=rehashed.call.times))
    seconds(session._replace(count=1), [as_many, rehashed], agree=True)


def hashed(session):
    """The lines of single hashes. A node has two digests, and each input one byte more, which tells leaves from nodes."""
    names = [("leaf", "hash_leaf", width) for width in WIDTHS] + [("node", "hash_node", 64)]
    for (what, name, width), taken in zip(names, seconds(session, [work(session, name, HASHES, width, 0) for _, name, width in names])):
        yield [f"{what} of {width} bytes"], [Figure(f"hash of a {what}", "ns", taken * 1e9, width, 0)]


def verified(session, width, bits):
    """The figures of a proof of the last version: its bytes, and how many are read and checked."""
    each = work(session, "verify", VERIFIED, width, bits)
    [runs] = in_turn(session, [each])
    # A run prints the bytes of all proofs that it checked. They have as many digests each, because the chunks are a whole tree.
    size, taken = int(runs[0].checksum) / each.call.times, least(runs)[0] / each.call.times
    return [Figure("proof", "bytes", size, width, bits), Figure("proof read and checked", "per second", 1 / taken, width, bits)]


def reads(session, name, shape):
    """The figures of a call by the commits after version 0. One that reads version 0 has to return the same after each number of commits."""
    (times, title, unit), bits = READS[name], SHAPES[shape]
    found = seconds(session, [work(session, name, times, WIDTH, bits, commits) for commits in BACK], agree=name != "prove")
    values = [1 / taken if unit == "per second" else taken * 1e6 for taken in found]
    return [Figure(title, unit, value, WIDTH, bits, commits) for value, commits in zip(values, BACK)]


def rewound(session):
    """The lines of rewinds, with roots and without: they go back from the last of so many commits."""
    bits, kept = SHAPES["4,096"], [commits for commits in BACK if commits >= REWOUND]
    names = {"rooted_rewind": "`rewind_to` by 1,000 commits", "plain_rewind": "`rewind_to` without roots"}
    found = [seconds(session, [work(session, name, REWINDS, WIDTH, bits, commits - REWOUND) for name in names], agree=True) for commits in kept]
    for title, taken in zip(names.values(), zip(*found)):
        figures = [Figure(title, "µs", each * 1e6, WIDTH, bits, commits) for each, commits in zip(taken, kept)]
        yield [title, "4,096", "µs"], [None] * (len(BACK) - len(kept)) + figures


def peak(session, name, bits, commits):
    """The peak memory of a run that makes some small commits, in megabytes."""
    return run(session.programs[ROOTS], Work(Call(name, 0), WIDTH, bits, commits).words()).megabytes


def remembered(session):
    """The line of the memory of the digests per kept commit: the peak of commits with roots, less that of the same commits without."""
    bits, commits = SHAPES["4,096"], BACK[-1]
    rooted, plain = (peak(session, name, bits, commits) - peak(session, name, bits, 0) for name in ("rooted_commit", "plain_commit"))
    figure = Figure("memory of the digests", "bytes per commit", (rooted - plain) * 1e6 / commits, WIDTH, bits, commits)
    yield ["memory of the digests", "4,096", "bytes per commit"], [None] * (len(BACK) - 1) + [figure]


def grown(session):
    """The lines of the table by the number of kept commits."""
    for name in session.named(READS):
        for shape in SHAPES:
            yield [READS[name][1], shape, READS[name][2]], reads(session, name, shape)
    if session.named(["rewind_to"]):
        yield from rewound(session)
    if session.named(["memory"]):
        yield from remembered(session)


def tables(session):
    """The tables that are wanted: the columns of each, and its lines. A line has its first cells, and its figures, of which None is not measured."""
    sizes = [(bits, width) for bits in BITS for width in WIDTHS]
    if session.named(["rooted_commit"]):
        columns = [", ".join(filter(None, named)).capitalize() for named in COMMIT]
        yield ["Bits", "Width", *columns], (([BITS[bits], width], committed(session, width, bits)) for bits, width in sizes)
    if session.named(["single_hash"]):
        yield ["SHA-256 alone", "ns"], hashed(session)
    if session.named(["verify"]):
        columns = ["Bits", "Width", "Proof, bytes", "Proofs read and checked, per second"]
        yield columns, (([BITS[bits], width], verified(session, width, bits)) for bits, width in sizes)
    if session.named([*READS, "rewind_to", "memory"]):
        yield ["Call", "Chunks", "Unit", "1 commit", *(f"{commits:,} commits" for commits in BACK[1:])], grown(session)
