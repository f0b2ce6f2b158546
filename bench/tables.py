"""The tables of docs/BENCHMARKS.md: which calls each measures, and how it prints them.

A table is a function. It takes a `Session`, prints its lines as soon as it has them, and returns the rows of figures for docs/benchmarks.
"""

from itertools import product
from math import exp, log
from typing import Callable, NamedTuple

import disk
import rooted
from measure import Call, costs, counts, own_costs, ratio, run
from programs import COPIES, FIXED, LMDB, NATIVE, ORIGINAL, OURS, PERSISTENT, PLAIN, ROARING, ROOTS, SQLITE, STORE, WHOLE

LARGE, SMALL = 64 << 20, 1 << 20  # bytes of dense bitmaps
HISTORICAL = 1 << 17  # bytes of historical bitmaps, which are 2^20 bits
WIDTHS = (1, 3, 8, 32)
COMMITS = (1000, 10_000, 100_000)

# Calls that take about a nanosecond per bit, calls that work on whole words, and how often a run calls them on 64 MB and on 1 MB.
SLOW = """push pop get set iter ones_iter zeros_iter to_bools from_bools hash prunable_push prunable_pop push_byte get_bit set_bit""".split()
FAST = """copy flip_all set_all and or xor equal count_ones is_unset extend_same extend_same_shifted extend_other extend_other_shifted extend_to
    truncate clone write read push_chunk prune unprune next_one next_zero prev_one count_ones_range select_one set_range and_not is_subset
    sparse_ones_iter""".split()
EXTENDS = "extend_same extend_same_shifted extend_other extend_other_shifted".split()
TIMES = {**dict.fromkeys(SLOW, (1, 8)), **dict.fromkeys(FAST, (16, 1024)), **dict.fromkeys(EXTENDS, (8, 256)), "hash": (4, 64),
         "sparse_ones_iter": (16, 512)}

# The edits of a batch: what they are, how often an aborted and a committed batch is run, and the edits per batch.
EDITS = {
    "set_far": ("set at random", 2000, 2000, 1000),
    "set_near": ("set within one chunk", 20_000, 20_000, 1000),
    "push": ("push a bit", 5000, 2000, 4096),
    "push_byte": ("push a byte", 2000, 300, 4096),
    "push_chunk": ("push a chunk", 200, 20, 4096),
    "push_pop": ("push bits, then pop them", 5000, 5000, 2000),
    "pop": ("pop", 10_000, 900, 1000),
    "mixed": ("sets, pushes, pops and reads at random", 5000, 5000, 1000),
    "slide": ("push 100 chunks, prune as many", 5000, 5000, 100),
    "nothing": ("no edit", 1_000_000, 500_000, 1),
}
PAST = [
    Call("pending_bits", 1_000_000), Call("pending_chunks", 500_000), Call("read_oldest", 50), Call("read_middle", 50),
    Call("read_newest", 20_000), Call("clone_commits", 20), Call("commit_exists", 5_000_000), Call("commit_numbers", 50_000),
]
ALONE = [Call("in_place_oldest", 200, 1000), Call("in_place_newest", 2000, 1000), Call("changed_chunks", 2000), Call("compared_chunks", 50)]
# How often a run calls the calls of a bitmap with many commits: with 1,000 of them, 10,000 and 100,000. `INDEXED` has those of this project alone.
# commonware-utils lists the set positions of the oldest commit in far shorter time.
INDEXED = {"indexed_get": (1_000_000, 500_000, 500_000), "indexed_scan": (50, 40, 30)}
KEPT = {"kept_commit": (20_000, 20_000, 100_000), "kept_window": (200_000, 200_000, 200_000), "kept_rewind": (100_000, 100_000, 100_000),
        "kept_rebuild": (4000, 500, 50), "kept_get": (20_000, 5000, 1000), "kept_scan": (2, 1, 1), **INDEXED}
SCANS = {"kept_scan": (200, 100, 10)}
# The bytes of the bitmaps of the table lengths, and how often a run calls those calls there whose time depends on the length, with 1,000 commits.
LENGTHS = (1 << 13, HISTORICAL, 1 << 23)
BY_LENGTH = {"kept_commit": (20_000, 20_000, 100_000), "kept_rebuild": (4000, 4000, 100), "kept_scan": (20, 2, 1), "indexed_scan": (800, 50, 1)}
# The calls of logs. One with units works on all of so many commits each time. `ENTRIES` prints the mean number of bytes of an entry.
LOGS = [Call("log_commit", 20_000), Call("plain_commit", 20_000), Call("log_recover", 100, 1000), Call("log_make", 100, 1000),
        Call("log_delta", 2000), Call("log_indexed_delta", 200_000), Call("log_write_history", 10, 1000),
        Call("log_indexed_write_history", 100, 1000), Call("log_read_history", 100, 1000)]
# Not measured: without an index, the time of a history per commit grows with the kept commits.
TOO_LONG = {("log_write_history", 100_000)}
ENTRIES = Call("log_bytes", 2000)

# The groups of calls whose ratios to commonware-utils are in ratios.csv.
DENSE_GROUPS = {
    "counts, bitwise calls, ==, clone, hash": "count_ones is_unset flip_all set_all and or xor equal clone hash",
    "get, set, push, pop, iter": "get set push pop iter",
    "from_bools, to_bools": "from_bools to_bools",
    "ones_iter": "ones_iter sparse_ones_iter",
    "extend_from_bitmap": "extend_same extend_same_shifted extend_other extend_other_shifted",
    "write, read_cfg": "write read",
    "Prunable, bit by bit": "get_bit set_bit prunable_push prunable_pop",
}
BATCH_GROUPS = {
    "aborted batch: sets": "batch_set_far batch_set_near",
    "aborted batch: pushes": "batch_push batch_push_byte batch_push_chunk batch_push_pop",
    "aborted batch: pop, prune": "batch_pop batch_slide",
    "aborted batch: sets, pushes, pops, reads": "batch_mixed",
    "batch: get_bit, get_chunk": "pending_bits pending_chunks",
    "committed batch: sets": "commit_set_far commit_set_near",
    "committed batch: pushes": "commit_push commit_push_byte commit_push_chunk commit_push_pop",
    "committed batch: pop, prune": "commit_pop commit_slide",
    "committed batch: sets, pushes, pops, reads": "commit_mixed",
    "committed batch: no edits": "commit_nothing",
    "abort without edits": "batch_nothing",
    "get_at_commit": "read_oldest read_middle read_newest",
    "clone with 1001 commits": "clone_commits",
    "commit_exists, commits": "commit_exists commit_numbers",
}
# The calls of growth.csv by the names that the file gives them.
GROWTH = {
    "kept_commit": "one set and commit", "kept_window": "the same, oldest dropped", "kept_rewind": "commit, then rewind",
    "kept_rebuild": "get_at_commit of the oldest", "kept_get": "one bit of the oldest", "kept_scan": "set positions of the oldest",
    "indexed_get": "one bit of the oldest", "indexed_scan": "set positions of the oldest",
}
# The calls of logs as the table names them, and the pairs whose ratio it has.
LOGGED = {
    "log_commit": "commit of 100 sets with its entry, oldest dropped", "plain_commit": "the same without an entry",
    "log_recover": "`recover`, commits of 10 sets", "log_make": "the same commits made without a log",
    "log_delta": "`delta` between neighbours, without an index", "log_indexed_delta": "the same, with an index",
    "log_write_history": "`write_history`, without an index", "log_indexed_write_history": "the same, with an index",
    "log_read_history": "`read_history`",
}
LOG_PAIRS = {"a commit with its entry, to one without": ("log_commit", "plain_commit"),
             "`recover`, to making the commits": ("log_recover", "log_make")}
KEEPS = {"keep_set_far": "1000 sets at random", "keep_set_near": "1000 sets, close together", "keep_push": "4096 pushes"}

# The tables of the Rust crate in `native`. A run is short: it works on so many bytes in all if it takes one bit at a time, if it reads single bits at
# random, if it copies bits, and if it takes whole words.
NATIVE_GROUPS = {**DENSE_GROUPS, "get, at random": "get_far"}
PAST_GROUPS = {
    "get_at_commit of the oldest of many": "kept_rebuild",
    "at without an index": "at_get at_scan",
    "at with an index": "indexed_get indexed_scan",
}
BYTES = {"bits": 1 << 20, "far": 16 << 20, "copied": 8 << 20, "words": 32 << 20}
COPIED = ["hash", *EXTENDS, "sparse_ones_iter"]
FAR = ["get_far"]
BITS = [*(name for name in SLOW if name not in COPIED), "push_new"]
SHARED = """get get_far set push_new ones_iter sparse_ones_iter count_ones count_ones_range flip_all set_range and or xor and_not is_subset equal
    clone""".split()  # calls of both the Rust crate and fixedbitset
LOOPS = ["push_new", "get", "get_far"]  # calls that are also loops over a `Vec<u64>`
COUNTED = 1 << 14  # bytes of the bitmaps whose instructions are counted
NOT_COUNTED = ("set_all", "clone")  # callgrind counts a fill or a copy of the C library as one instruction per byte
PENDING = ("pending_bits", "pending_chunks")  # the instructions of other calls of `PAST` are not counted, because their commits take long to make
# Reads of a past state with many kept commits, and how often they are run.
READS = [Call("kept_rebuild", 50), Call("at_get", 500), Call("indexed_get", 50_000), Call("indexed_scan", 10), Call("gathered_scan", 10),
         Call("chosen_scan", 10), Call("at_scan", 1)]
READ_AS = {"kept_rebuild": "`get_at_commit` of the oldest", "at_get": "`at` the oldest: a random bit", "at_scan": "`at` the oldest: all set positions",
           "gathered_scan": "`gathered` of the oldest, and all set positions", "chosen_scan": "`at_for` the oldest, and all set positions",
           "indexed_get": "with an index: a random bit", "indexed_scan": "with an index: all set positions"}

# The columns of the table stores, by their names in stores.csv.
STORED = {
    "sets": "Sets per commit", "way": "Way to keep versions", "synced_per_second": "Synced: commits per second",
    "synced_write_bytes": "bytes written per commit", "synced_call_bytes": "bytes passed to write calls per commit",
    "buffered_per_second": "Buffered: commits per second", "buffered_write_bytes": "bytes written per commit",
    "buffered_call_bytes": "bytes passed to write calls per commit", "commits": "After so many commits", "open_ms": "open, ms",
    "bit_us": "one bit of an old version, µs", "version_ms": "a whole old version, ms", "files_mb": "files, MB", "compacted_mb": "compacted, MB",
    "memory_mb": "memory, MB",
}

# The names of the calls that tables measure.
DENSE = [name for names in DENSE_GROUPS.values() for name in names.split()]
BATCHES = [f"{end}_{edits}" for edits in EDITS for end in ("batch", "commit")]
# The groups of calls whose ratios to peers the table peers prints; the last one is of all others.
PEER_GROUPS = {"`count_ones`, `flip_all`": "count_ones flip_all", "`ones_iter`": "ones_iter", "set positions of a sparse bitmap": "sparse_ones_iter"}
COMPARED = "count_ones flip_all and or xor equal clone get set ones_iter sparse_ones_iter".split()


class Session(NamedTuple):
    programs: dict  # the programs by their names; one that cannot be built is not there
    count: int  # how often each run is run
    wanted: list  # the names of the calls to measure; all if it is empty
    divisor: int  # a run makes so many times fewer calls than a table says
    counted: bool = False  # instructions are counted, and no time is taken
    large: bool = True  # dense bitmaps of 64 MB are measured too
    folder: str = "."  # where the programs of the table stores write

    def chosen(self, calls):
        """The calls that are to be measured."""
        return [call for call in calls if not self.wanted or call.name in self.wanted]

    def named(self, names):
        """The names of those of some calls that are to be measured."""
        return [name for name in names if not self.wanted or name in self.wanted]

    def costs(self, names, call, width, size, commits=()):
        """The costs of a call, for those of some programs that are there. If checksums alone are compared, all programs run it as often."""
        there, found = [self.programs[name] for name in names if name in self.programs], {}
        parts = {call.times: there}
        if call.others and self.divisor == 1:
            parts = {times: [each for each in there if (each.name == OURS) == (times == call.times)] for times in (call.times, call.others)}
        for times, part in parts.items():
            fewer = call._replace(times=max(times // self.divisor, 1))
            for name, cost in costs(part, fewer, width, size, self.count, commits).items():
                found[name] = cost._replace(seconds=cost.seconds * call.times / fewer.times)
        return found

    def own_costs(self, names, call, width, size, commits=()):
        """The costs of a call, for some programs that measure the time of their calls themselves."""
        fewer = call._replace(times=max(call.times // self.divisor, 1))
        found = own_costs([self.programs[name] for name in names], fewer, width, size, self.count, commits)
        return {name: cost._replace(seconds=cost.seconds * call.times / fewer.times) for name, cost in found.items()}

    def printed(self, call, width, size, commits=()):
        """What this project's program prints for a call."""
        return run(self.programs[OURS], [call.name, width, size, max(call.times // self.divisor, 1), *commits]).checksum


def say(*cells):
    """Prints a row of a table."""
    print(f"| {' | '.join(map(str, cells))} |", flush=True)


def head(*cells):
    """Prints the head of a table after an empty line."""
    print()
    say(*cells)
    print("|---" * len(cells) + "|")


def short(value):
    """A number with three digits, or with more before the point, or what stands for a missing one."""
    if value is None:
        return "too short"
    return f"{value:.0f}" if value >= 100 else f"{value:.3g}"


def hundredths(value):
    """A ratio with two digits after the point, or what stands for a missing one."""
    return "too short" if value is None else f"{value:.2f}"


def mean(values):
    """The geometric mean of the values that are there, or None."""
    logs = [log(value) for value in values if value is not None]
    return exp(sum(logs) / len(logs)) if logs else None


def dense_sizes(widths):
    """The sizes and widths of dense bitmaps. Large bitmaps are measured at the default width alone."""
    return [(LARGE, 8), *product([SMALL], widths)]


def dense_titles(widths):
    """The columns of tables of dense bitmaps."""
    return [f"{width}, {size >> 20} MB" for size, width in dense_sizes(widths)]


def dense_call(name, size):
    """A call of dense or pruned bitmaps of one size."""
    return Call(name, TIMES[name][0 if size == LARGE else 1], 8 * size)


def kept_calls(names, times=KEPT):
    """The names of calls of a bitmap with many commits, each with the three calls whose numbers of runs are in `times`."""
    found = {}
    for name in names:
        others = SCANS.get(name, (0, 0, 0))
        found[name] = [Call(name, *each) for each in zip(times[name], (1, 1, 1), others)]
    return found


def batch_calls(session):
    """The aborted and the committed batches of some edits."""
    for edits, (title, aborted, committed, units) in EDITS.items():
        calls = [Call(f"batch_{edits}", aborted, units), Call(f"commit_{edits}", committed, units)]
        if session.chosen(calls):
            yield title, calls


def grouped(groups, kind, ratios):
    """The rows of ratios.csv: the mean of each group of calls. `ratios` has a list per call. A group without a measurement has no row."""
    for group, names in groups.items():
        values = [value for name in names.split() for value in ratios.get(name, []) if value is not None]
        if values:
            yield {"bitmap": kind, "group": group, "measurements": len(values), "ratio": f"{mean(values):.2f}"}


def pair(session, call, width, size):
    """The ratio of this project's cost to that of commonware-utils."""
    found = session.costs([OURS, ORIGINAL], call, width, size)
    return ratio(found[OURS], found[ORIGINAL])


def triple(session, call):
    """These ratios for a call of a historical bitmap with chunks of 32, 8 and 4 bytes."""
    return [pair(session, call, width, HISTORICAL) for width in (32, 8, 4)]


def dense(session):
    """Ratios of dense and pruned bitmaps to commonware-utils."""
    found = {}
    head("Ratio of times, by width and size", *dense_titles(WIDTHS))
    for name in session.named(DENSE):
        found[name] = [pair(session, dense_call(name, size), width, size) for size, width in dense_sizes(WIDTHS)]
        say(f"`{name}`", *map(hundredths, found[name]))
    return print_groups(DENSE_GROUPS, "dense and pruned", found)


def print_groups(groups, kind, ratios):
    """Prints the mean of each group of calls, and returns the rows of ratios.csv."""
    rows = list(grouped(groups, kind, ratios))
    head("Calls", "Measurements", "Ratio of times")
    for row in rows:
        say(row["group"], row["measurements"], row["ratio"])
    return {"ratios": rows}


def batches(session):
    """Ratios of historical bitmaps to commonware-utils: batches of edits, and other calls."""
    found = {}
    head("Ratio of times at the widths 32, 8 and 4, by edits", "Batch aborted", "Batch committed")
    for title, calls in batch_calls(session):
        found.update({call.name: triple(session, call) for call in session.chosen(calls)})
        say(title, *(", ".join(map(hundredths, found.get(call.name, []))) for call in calls))
    head("Other calls", "Ratio of times at the widths 32, 8 and 4")
    for call in session.chosen(PAST):
        found[call.name] = triple(session, call)
        say(f"`{call.name}`", ", ".join(map(hundredths, found[call.name])))
    return print_groups(BATCH_GROUPS, "historical", found)


def short_call(session, name, size):
    """A dense call that is run so often that a run is short, but not too short to be measured."""
    if session.counted:
        return Call(name, 1 if name in BITS + FAR else 8)
    kind = "bits" if name in BITS else "far" if name in FAR else "copied" if name in COPIED else "words"
    return Call(name, max(BYTES[kind] // size, 1))


def cells(session, name):
    """The sizes and widths at which a dense call of the Rust crate is measured: large bitmaps at the default width alone."""
    if session.counted:
        return [(COUNTED, width) for width in WIDTHS] if name not in NOT_COUNTED else []
    return ([(LARGE, 8)] if session.large else []) + [(SMALL, width) for width in WIDTHS]


def compared(session, call, width, size):
    """The ratio of the Rust crate's time to that of commonware-utils, or of its instructions if they are counted."""
    if not session.counted:
        found = session.own_costs([NATIVE, ORIGINAL], call, width, size)
        return ratio(found[NATIVE], found[ORIGINAL])
    found = counts([session.programs[name] for name in (NATIVE, ORIGINAL)], call, width, size)
    return found[NATIVE] / found[ORIGINAL]


def native_dense(session):
    """The ratios of dense calls, by their names."""
    found = {}
    sizes = [(COUNTED, width) for width in WIDTHS] if session.counted else [(LARGE, 8), *product([SMALL], WIDTHS)]
    head("Ratio, by width and size", *(f"{width}, {size >> 20} MB" if size >= SMALL else f"{width}, {size >> 10} KB" for size, width in sizes))
    for name in [name for names in NATIVE_GROUPS.values() for name in names.split()]:
        if session.chosen([Call(name, 1)]):
            row = {cell: compared(session, short_call(session, name, cell[0]), cell[1], cell[0]) for cell in cells(session, name)}
            found[name] = list(row.values())
            say(f"`{name}`", *(short(row[cell]) if cell in row else "" for cell in sizes))
    return found


def native_batches(session):
    """The ratios of batches, and of reads of bitmaps with commits, by the names of the calls."""
    found = {}
    head("Ratio, 2^20 bits", "Width 32", "8", "4")
    calls = [call for _, calls in batch_calls(session) for call in calls]
    calls += [call for call in PAST if not session.counted or call.name in PENDING]
    for call in session.chosen(calls):
        fewer = call._replace(times=max(call.times // (1000 if session.counted else 10), 2))
        found[call.name] = [compared(session, fewer, width, HISTORICAL) for width in (32, 8, 4)]
        say(f"`{call.name}`", *map(short, found[call.name]))
    return found


def native_reads(session):
    """The ratios of reads of the oldest of many commits to rebuilding it in commonware-utils, and their times, by the names of the calls."""
    found = {}
    head("Microseconds, width 8, 2^20 bits", *(f"{kept:,} commits, {name}" for kept in COMMITS for name in ("the Rust crate", ORIGINAL)))
    for call in session.chosen(READS):
        taken = [session.own_costs([NATIVE, ORIGINAL], call, 8, HISTORICAL, [kept]) for kept in COMMITS]
        found[call.name] = [ratio(each[NATIVE], each[ORIGINAL]) for each in taken]
        say(READ_AS[call.name], *(microseconds(call, each[name]) for each in taken for name in (NATIVE, ORIGINAL)))
    return found


def native(session):
    """Ratios of the Rust crate in `native` to commonware-utils, of short runs. Both are built together."""
    dense = native_dense(session)
    # The first ratio of a call is that of the large bitmap, if there is one.
    large = {name: values[:1] for name, values in dense.items()} if session.large and not session.counted else {}
    small = {name: values[1:] if large else values for name, values in dense.items()}
    print_sizes(NATIVE_GROUPS, {"16 KB" if session.counted else "1 MB": small, "64 MB": large})
    historical = native_batches(session)
    print_sizes(BATCH_GROUPS, {"2^20 bits": historical})
    print_sizes({"all calls of the tables above": " ".join(dense | historical)}, {"but 64 MB": small | historical, "with 64 MB": join(small | historical, large)})
    if not session.counted:
        print_groups(PAST_GROUPS, "historical", native_reads(session))
    return {}


def join(ratios, others):
    """The ratios of each call, with the others of the same name."""
    return {name: values + others.get(name, []) for name, values in ratios.items()}


def print_sizes(groups, found):
    """Prints the mean of each group of calls by size, and in brackets how many ratios it has. `found` has the ratios per call of each size."""
    head("Geometric mean of ratios", *(size for size, ratios in found.items() if ratios))
    for group, names in groups.items():
        values = [[value for name in names.split() for value in ratios.get(name, []) if value is not None] for ratios in found.values() if ratios]
        if any(values):
            say(group, *(f"{short(mean(each))} ({len(each)})" if each else "" for each in values))


def beside(session, peer, names):
    """Prints the times of a peer, in nanoseconds per 1,000 bits of the bitmap, and the ratios of the Rust crate to it at the widths 8 and 32."""
    names = [name for name in session.wanted or names if name in names]
    sizes = [(1 << 13, "8 KiB"), (SMALL, "1 MiB"), *([(LARGE, "64 MiB")] if session.large else [])]
    ratios = []
    if names:
        head("Call", *(f"{title}: {what}" for _, title in sizes for what in (peer, "ratio of times at width 8", "32")))
    for name in names:
        row = []
        for size, _ in sizes:
            call = short_call(session, name, size)
            taken = [session.own_costs([NATIVE, peer], call, width, size) for width in (8, 32)]
            found = [ratio(each[NATIVE], each[peer]) for each in taken]
            least = min(each[peer].seconds for each in taken)
            row += [short(least * 1e9 / call.times / (8 * size) * 1000), *map(short, found)]
            ratios += found
        say(f"`{name}`", *row)
    return ratios


def native_peers(session):
    """Times of the Rust crate in `native` beside fixedbitset and plain loops, of short runs: nanoseconds per 1,000 bits of the bitmap."""
    found = {peer: beside(session, peer, names) for peer, names in ((FIXED, SHARED), (PLAIN, LOOPS))}
    head("Calls", "Measurements", "Ratio of times")
    for peer, ratios in found.items():
        values = [value for value in ratios if value is not None]
        if ratios:
            say(f"all, to {peer}", len(values), short(mean(values)))
    return {}


def microseconds(call, cost):
    """The microseconds of one call, with three digits."""
    return short(max(cost.seconds, 0) / call.times * 1e6)


def growth(session):
    """Times by the number of kept commits, of this project and of commonware-utils."""
    rows, ratios = [], {}
    head("Microseconds, width 8, 2^20 bits", "Program", *(f"{kept:,} commits" for kept in COMMITS))
    for name, calls in kept_calls(session.named(KEPT)).items():
        programs = [OURS] if name in INDEXED else [OURS, ORIGINAL]
        found = [session.costs(programs, call, 8, HISTORICAL, [kept]) for call, kept in zip(calls, COMMITS)]
        if ORIGINAL in found[0]:
            ratios[name] = [ratio(each[OURS], each[ORIGINAL]) for each in found]
        for program in found[0]:
            times = [microseconds(call, each[program]) for call, each in zip(calls, found)]
            rows += grown(GROWTH[name], "at with an index" if name in INDEXED else program, times)
    print_ratios("Ratio of times to commonware-utils", {GROWTH[name]: each for name, each in ratios.items()}, COMMITS)
    return {"growth": rows}


def grown(title, program, times):
    """The rows of growth.csv for a call and a program, which are printed."""
    say(title, program, *times)
    return [{"call": title, "program": program, "commits": kept, "microseconds": time} for kept, time in zip(COMMITS, times)]


def print_ratios(title, ratios, commits):
    """Prints a ratio for each number of commits, by call."""
    if ratios:
        head(title, *(f"{kept:,} commits" for kept in commits))
    for name, values in ratios.items():
        say(name, *map(hundredths, values))


def lengths(session):
    """Times by the length of the bitmap, of this project, with 1,000 commits."""
    head("Microseconds, width 8, 1,000 commits", "2^16 bits", "2^20", "2^26")
    times = {name: BY_LENGTH.get(name, (KEPT[name][0],) * len(LENGTHS)) for name in KEPT}
    for name, calls in kept_calls(session.named(KEPT), times).items():
        found = [session.costs([OURS], call, 8, size, [1000])[OURS] for call, size in zip(calls, LENGTHS)]
        say(f"`{name}`", *(microseconds(call, cost) for call, cost in zip(calls, found)))
    return {}


def commits(session):
    """Time and memory of 1000 kept commits, of this project and of other ways to keep versions."""
    rows = []
    head("Batch", "Program", "Microseconds per commit", "Peak memory of 1000 commits, MB")
    for call in session.chosen([Call(name, 1000) for name in KEEPS]):
        for name, cost in session.costs([OURS, COPIES, ROARING, PERSISTENT], call, 8, HISTORICAL).items():
            row = {"batch": KEEPS[call.name], "program": name, "microseconds": f"{cost.seconds * 1e3:.1f}", "megabytes": f"{cost.megabytes:.1f}"}
            say(*row.values())
            rows.append(row)
    return {"commits": rows}


def peers(session):
    """Ratios of dense calls to fixedbitset and CRoaring."""
    ratios = {}
    head("Ratio of times, by width and size", "Peer", *dense_titles((8, 32)))
    for name in session.named(COMPARED):
        others = [FIXED, ROARING] if name.endswith("ones_iter") else [FIXED]
        found = [session.costs([OURS, *others], dense_call(name, size), width, size) for size, width in dense_sizes((8, 32))]
        for other in others:
            ratios[name, other] = [ratio(each[OURS], each[other]) for each in found]
            say(f"`{name}`", other, *map(hundredths, ratios[name, other]))
    print_spans(ratios)
    return {}


def print_spans(ratios):
    """Prints the least and the greatest ratio of groups of calls to each peer. `ratios` has a list per call and peer."""
    head("Calls", "Peer", "Ratio of times")
    others = [name for name in COMPARED if name not in " ".join(PEER_GROUPS.values()).split()]
    for title, names in {**PEER_GROUPS, "other dense calls": " ".join(others)}.items():
        for peer in (FIXED, ROARING):
            values = [value for name in names.split() for value in ratios.get((name, peer), []) if value is not None]
            if values:
                say(title, peer, f"{min(values):.2f} to {max(values):.2f}")


def per_unit(call, cost):
    """The nanoseconds per unit of a call."""
    return max(cost.seconds, 0) * 1e9 / call.times / call.units


def nanoseconds(session, call, width, size):
    """The nanoseconds of this project per unit of a call."""
    return f"{per_unit(call, session.costs([OURS], call, width, size)[OURS]):.3f}"


def alone(session):
    """Times of this project alone: per bit of dense and pruned bitmaps, and per edit or read of historical ones.

    `copy` copies as many bytes into memory that was used before: no call that writes as many bytes can be faster."""
    head("Nanoseconds per bit, by width and size", *dense_titles(WIDTHS))
    for name in session.named(FAST + SLOW):
        say(f"`{name}`", *(nanoseconds(session, dense_call(name, size), width, size) for size, width in dense_sizes(WIDTHS)))
    head("Nanoseconds per edit, read or call, 2^20 bits", "Width 8", "32")
    batch = [call for _, calls in batch_calls(session) for call in calls]
    for call in session.chosen(batch + PAST + ALONE):
        say(f"`{call.name}`", *(nanoseconds(session, call, width, HISTORICAL) for width in (8, 32)))
    return {}


def with_commits(call, kept):
    """A call of logs on a bitmap with so many commits. If it works on all of them each time, it is called less often, and takes as long."""
    return call if call.units == 1 else call._replace(times=max(call.times * call.units // kept, 1), units=kept)


def log_costs(session, call):
    """The costs of a call of logs by the number of commits, each with the call that has it. One that takes too long is left out."""
    calls = {kept: with_commits(call, kept) for kept in COMMITS if (call.name, kept) not in TOO_LONG}
    return {kept: (each, session.costs([OURS], each, 8, HISTORICAL, [kept])[OURS]) for kept, each in calls.items()}


def logs(session):
    """Times of commits with and without an entry in a log, and of what is made of many logged commits, of this project."""
    columns, found = [f"{kept:,} commits" for kept in COMMITS], {}
    head("Nanoseconds per commit or delta, width 8, 2^20 bits", *columns)
    for call in session.chosen(LOGS):
        found[call.name] = log_costs(session, call)
        say(LOGGED[call.name], *(short(per_unit(*found[call.name][kept])) if kept in found[call.name] else "not measured" for kept in COMMITS))
    pairs = {title: pair for title, pair in LOG_PAIRS.items() if set(pair) <= set(found)}
    ratios = {title: [ratio(found[first][kept][1], found[second][kept][1]) for kept in COMMITS] for title, (first, second) in pairs.items()}
    print_ratios("Ratio of times", ratios, COMMITS)
    head("Bytes", *columns)
    for call in session.chosen([ENTRIES]):
        say("entry of a commit of 100 sets", *(session.printed(call, 8, HISTORICAL, [kept]) for kept in COMMITS))
    return {}


def describe_disk(folder, count):
    """Prints which file system the table stores is about, and what the disk does without any of its programs."""
    kind, device = disk.file_system(folder)
    head("Disk of", folder)
    say("File system", f"{kind} on {device}" + (", which is in memory: the figures say nothing about a disk" if kind in disk.IN_MEMORY else ""))
    say("Figures", f"elapsed time: the median of {count} runs for synced commits, and one run for buffered ones and for reads")
    say_disk(folder)


def say_disk(folder):
    """Prints how often per second the disk syncs a block."""
    for appends, what in ((False, "in place"), (True, "at the end of a file")):
        say(f"`fdatasync` of {disk.BLOCK} bytes {what}, alone", f"{disk.syncs_per_second(folder, appends):.0f} per second")


def synced_runs(session, ways, folder, setting):
    """The runs of some ways whose commits are synced: a list per way. The ways take turns."""
    found = {name: [] for name in ways}
    for _ in range(session.count):
        for name, way in ways.items():
            found[name].append(disk.run(session.programs[way.program], way, folder, setting.synced, setting.sets, "synced"))
    return found


def stored(session, ways, folder, setting):
    """The rows of the table stores with a setting, which are printed as soon as they are there."""
    synced = synced_runs(session, ways, folder, setting)
    disk.compare(f"{setting.synced} commits of {setting.sets} sets", {ways[name].title: runs[-1] for name, runs in synced.items()})
    rows, last = [], {}
    for name, way in ways.items():
        last[way.title] = disk.run(session.programs[way.program], way, folder, setting.buffered, setting.sets, "buffered")
        costs = {**disk.write_costs("synced", synced[name], setting.synced), **disk.write_costs("buffered", [last[way.title]], setting.buffered)}
        figures = {**costs, "commits": setting.buffered, **disk.read_costs(last[way.title])}
        row = {"sets": setting.sets, "way": way.title, **figures}
        rows.append({column: short(row[column]) if isinstance(row[column], float) else row[column] for column in STORED})
        say(*("none" if cell is None else cell for cell in rows[-1].values()))
    disk.compare(f"{setting.buffered} commits of {setting.sets} sets", last)
    return rows


def stores(session):
    """Costs of commits and reads of versions that are kept in files: 2^20 bits, width 8.

    A synced commit is on the disk when its call returns. Buffered commits are synced once per 1,000."""
    ways = {name: way for name, way in disk.WAYS.items() if not session.wanted or name in session.wanted}
    folder = disk.prepare(session.folder)
    settings = [disk.fewer(setting, session.divisor) for setting in disk.SETTINGS]
    disk.check_space(folder, ways.values(), max(setting.buffered for setting in settings))
    describe_disk(folder, session.count)
    head(*STORED.values())
    rows = [row for setting in settings for row in stored(session, ways, folder, setting)]
    head("Disk after the runs", folder)
    say_disk(folder)
    return {"stores": rows}


def roots(session):
    """Costs of roots of versions and of their proofs, by SHA-256, of the Rust crate in `native`.

    A commit flips 100 bits in the first table, and in the last one a bit."""
    rows = []
    for columns, lines in rooted.tables(session):
        head(*columns)
        for names, figures in lines:
            say(*names, *("not measured" if each is None else each.cell() for each in figures))
            rows += [each.row() for each in figures if each is not None]
    return {"roots": rows}


def names_of(calls):
    """The names of some calls."""
    return [call.name for call in calls]


class Table(NamedTuple):
    measure: Callable
    calls: list  # the names of the calls that it measures
    needs: list  # the programs that it cannot do without
    takes: list  # the programs that it measures if they are there
    minutes: int  # about how long it takes with five runs, on a machine that does nothing else, once the programs are built


TABLES = {
    "dense": Table(dense, DENSE, [OURS, ORIGINAL], [], 9),
    "batches": Table(batches, BATCHES + names_of(PAST), [OURS, ORIGINAL], [], 3),
    "native": Table(native, [*DENSE, *FAR, *BATCHES, *names_of(PAST + READS)], [NATIVE, ORIGINAL], [], 3),
    "native-peers": Table(native_peers, SHARED, [NATIVE, FIXED, PLAIN], [], 1),
    "growth": Table(growth, list(KEPT), [OURS], [ORIGINAL], 1),
    "lengths": Table(lengths, list(KEPT), [OURS], [], 1),
    "logs": Table(logs, names_of([*LOGS, ENTRIES]), [OURS], [], 2),
    "commits": Table(commits, list(KEEPS), [OURS, COPIES, ROARING, PERSISTENT], [], 1),
    "peers": Table(peers, COMPARED, [OURS, FIXED, ROARING], [], 2),
    "stores": Table(stores, list(disk.WAYS), [STORE, SQLITE, LMDB, WHOLE], [], 4),
    "roots": Table(roots, rooted.CALLS, [ROOTS], [], 3),
    "alone": Table(alone, FAST + SLOW + BATCHES + names_of(PAST + ALONE), [OURS], [], 6),
}
