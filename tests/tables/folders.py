"""Folders: the rows for which a part stands, and the first fault of one that stands for none."""

from calls import Step, Story, frames, numbers

# Three rows in two granules, Wide.
WIDE = dict(
    table="CREATE TABLE t (k UInt32, s String) ENGINE = MergeTree ORDER BY k",
    files=[
        ("columns.txt", b"columns format version: 1\n2 columns:\n`k` UInt32\n`s` String\n"),
        ("count.txt", b"3"),
        ("k.bin", frames([b"\x01\x00\x00\x00\x02\x00\x00\x00", b"\x03\x00\x00\x00"])),
        ("k.mrk2", numbers([0, 0, 2, 33, 0, 1, 62, 0, 0])),
        ("primary.idx", b"\x01\x00\x00\x00\x03\x00\x00\x00\x03\x00\x00\x00"),
        ("s.bin", frames([b"\x01a\x01b", b"\x01c"])),
        ("s.mrk2", numbers([0, 0, 2, 29, 0, 1, 56, 0, 0])),
    ],
    projection=[],
)

# The same rows, Compact.
COMPACT = dict(
    table="CREATE TABLE t (k UInt32, s String) ENGINE = MergeTree ORDER BY k",
    files=[
        ("columns.txt", b"columns format version: 1\n2 columns:\n`k` UInt32\n`s` String\n"),
        ("count.txt", b"3"),
        ("data.bin", frames([b"\x01\x00\x00\x00\x02\x00\x00\x00", b"\x01a\x01b", b"\x03\x00\x00\x00", b"\x01c"])),
        ("data.mrk3", numbers([0, 0, 33, 0, 2, 62, 0, 91, 0, 1, 118, 0, 118, 0, 0])),
        ("primary.idx", b"\x01\x00\x00\x00\x03\x00\x00\x00\x03\x00\x00\x00"),
    ],
    projection=[],
)

# Days of one month.
MONTH = dict(
    table="CREATE TABLE t (d Date, k UInt8) ENGINE = MergeTree PARTITION BY toYYYYMM(d) ORDER BY k",
    files=[
        ("columns.txt", b"columns format version: 1\n2 columns:\n`d` Date\n`k` UInt8\n"),
        ("count.txt", b"2"),
        ("d.bin", frames([b"\x0b\x4d", b"\x29\x4d"])),
        ("d.mrk2", numbers([0, 0, 1, 27, 0, 1, 54, 0, 0])),
        ("k.bin", frames([b"\x01\x02"])),
        ("k.mrk2", numbers([0, 0, 1, 0, 1, 1, 27, 0, 0])),
        ("minmax_d.idx", b"\x0b\x4d\x29\x4d"),
        ("partition.dat", b"\xa1\x16\x03\x00"),
        ("primary.idx", b"\x01\x02\x02"),
    ],
    projection=[],
)

# A day in a partition key of the day and its month.
DAY = dict(
    table="CREATE TABLE t (d Date, k UInt8) ENGINE = MergeTree PARTITION BY (d, toYYYYMM(d)) ORDER BY k",
    files=[
        ("columns.txt", b"columns format version: 1\n2 columns:\n`d` Date\n`k` UInt8\n"),
        ("count.txt", b"1"),
        ("d.bin", frames([b"\x0b\x4d"])),
        ("d.mrk2", numbers([0, 0, 1, 27, 0, 0])),
        ("k.bin", frames([b"\x01"])),
        ("k.mrk2", numbers([0, 0, 1, 26, 0, 0])),
        ("minmax_d.idx", b"\x0b\x4d\x0b\x4d"),
        ("partition.dat", b"\x0b\x4d\xa1\x16\x03\x00"),
        ("primary.idx", b"\x01\x01"),
    ],
    projection=[],
)

# A set index over two granules an entry, and a minmax index.
INDEXED = dict(
    table="CREATE TABLE t (k UInt8, x UInt8, INDEX i x TYPE set(2) GRANULARITY 2, INDEX j k TYPE minmax) ENGINE = MergeTree ORDER BY k",
    files=[
        ("columns.txt", b"columns format version: 1\n2 columns:\n`x` UInt8\n`k` UInt8\n"),
        ("count.txt", b"3"),
        ("k.bin", frames([b"\x01\x02\x03"])),
        ("k.mrk2", numbers([0, 0, 1, 0, 1, 1, 0, 2, 1, 28, 0, 0])),
        ("x.bin", frames([b"\x07\x08\x09"])),
        ("x.mrk2", numbers([0, 0, 1, 0, 1, 1, 0, 2, 1, 28, 0, 0])),
        ("primary.idx", b"\x01\x02\x03\x03"),
        (
            "skp_idx_i.idx",
            frames([b"\x02\x00\x00\x00\x00\x00\x00\x00\x08\x07", b"\x01\x00\x00\x00\x00\x00\x00\x00\x09"]),
        ),
        ("skp_idx_i.mrk2", numbers([0, 0, 1, 35, 0, 1])),
        ("skp_idx_j.idx2", frames([b"\x01\x01\x02\x02\x03\x03"])),
        ("skp_idx_j.mrk2", numbers([0, 0, 1, 0, 2, 1, 0, 4, 1])),
    ],
    projection=[],
)

# A projection of sums that wrap, and of counts.
PROJECTED = dict(
    table="CREATE TABLE t (k UInt8, v UInt64, PROJECTION p (SELECT k, sum(v), count() GROUP BY k)) ENGINE = MergeTree ORDER BY k",
    files=[
        ("columns.txt", b"columns format version: 1\n2 columns:\n`k` UInt8\n`v` UInt64\n"),
        ("count.txt", b"2"),
        ("k.bin", frames([b"\x01\x01"])),
        ("k.mrk2", numbers([0, 0, 2, 27, 0, 0])),
        ("v.bin", frames([b"\xff\xff\xff\xff\xff\xff\xff\xff\x02\x00\x00\x00\x00\x00\x00\x00"])),
        ("v.mrk2", numbers([0, 0, 2, 41, 0, 0])),
        ("primary.idx", b"\x01\x01"),
    ],
    projection=[
        (
            "columns.txt",
            b"columns format version: 1\n3 columns:\n`k` UInt8\n`sum(v)` AggregateFunction(sum, UInt64)\n`count()` AggregateFunction(count)\n",
        ),
        ("count.txt", b"1"),
        ("k.bin", frames([b"\x01"])),
        ("k.mrk2", numbers([0, 0, 1, 26, 0, 0])),
        ("sum%28v%29.bin", frames([b"\x01\x00\x00\x00\x00\x00\x00\x00"])),
        ("sum%28v%29.mrk2", numbers([0, 0, 1, 33, 0, 0])),
        ("count%28%29.bin", frames([b"\x02"])),
        ("count%28%29.mrk2", numbers([0, 0, 1, 26, 0, 0])),
        ("primary.idx", b"\x01\x01"),
    ],
)

# Arrays, NULL and texts: a granule a row.
NESTED = dict(
    table="CREATE TABLE t (k UInt8, a Array(Nullable(String))) ENGINE = MergeTree ORDER BY k",
    projection=[],
    files=[
        ("columns.txt", b"columns format version: 1\n2 columns:\n`k` UInt8\n`a` Array(Nullable(String))\n"),
        ("count.txt", b"2"),
        ("primary.idx", b"\x01\x02\x02"),
        ("k.bin", frames([b"\x01", b"\x02"])),
        ("k.mrk2", numbers([0, 0, 1, 26, 0, 1, 52, 0, 0])),
        ("a.size0.bin", frames([b"\x00\x00\x00\x00\x00\x00\x00\x00", b"\x02\x00\x00\x00\x00\x00\x00\x00"])),
        ("a.size0.mrk2", numbers([0, 0, 1, 33, 0, 1, 66, 0, 0])),
        ("a.null.bin", frames([b"\x00\x01"])),
        ("a.null.mrk2", numbers([0, 0, 1, 0, 0, 1, 27, 0, 0])),
        ("a.bin", frames([b"\x03a'b\x00"])),
        ("a.mrk2", numbers([0, 0, 1, 0, 0, 1, 30, 0, 0])),
    ],
)

# Values or NULL in one granule; any item stands under NULL.
NULLABLE = dict(
    table="CREATE TABLE t (k UInt8, n Nullable(UInt8)) ENGINE = MergeTree ORDER BY k",
    projection=[],
    files=[
        ("columns.txt", b"columns format version: 1\n2 columns:\n`k` UInt8\n`n` Nullable(UInt8)\n"),
        ("count.txt", b"3"),
        ("primary.idx", b"\x01\x03"),
        ("k.bin", frames([b"\x01\x02\x03"])),
        ("k.mrk2", numbers([0, 0, 3, 28, 0, 0])),
        ("n.null.bin", frames([b"\x00\x01\x00"])),
        ("n.null.mrk2", numbers([0, 0, 3, 28, 0, 0])),
        ("n.bin", frames([b"\x01\x07\x02"])),
        ("n.mrk2", numbers([0, 0, 3, 28, 0, 0])),
    ],
)

# The same values, Compact.
COMPACT_NULLABLE = dict(
    table="CREATE TABLE t (k UInt8, n Nullable(UInt8)) ENGINE = MergeTree ORDER BY k",
    projection=[],
    files=[
        ("columns.txt", b"columns format version: 1\n2 columns:\n`k` UInt8\n`n` Nullable(UInt8)\n"),
        ("count.txt", b"3"),
        ("primary.idx", b"\x01\x03"),
        ("data.bin", frames([b"\x01\x02\x03", b"\x00\x01\x00\x01\x07\x02"])),
        ("data.mrk3", numbers([0, 0, 28, 0, 3, 59, 0, 59, 0, 0])),
    ],
)

# The arrays, NULL and texts, Compact.
COMPACT_NESTED = dict(
    table="CREATE TABLE t (k UInt8, a Array(Nullable(String))) ENGINE = MergeTree ORDER BY k",
    projection=[],
    files=[
        ("columns.txt", b"columns format version: 1\n2 columns:\n`k` UInt8\n`a` Array(Nullable(String))\n"),
        ("count.txt", b"2"),
        ("primary.idx", b"\x01\x02\x02"),
        (
            "data.bin",
            frames(
                [
                    b"\x01",
                    b"\x00\x00\x00\x00\x00\x00\x00\x00",
                    b"\x02",
                    b"\x02\x00\x00\x00\x00\x00\x00\x00\x00\x01\x03a'b\x00",
                ],
            ),
        ),
        ("data.mrk3", numbers([0, 0, 26, 0, 1, 59, 0, 85, 0, 1, 125, 0, 125, 0, 0])),
    ],
)

# Frames of one byte, each with one thing wrong: another method, the first size, a payload above the limit, and one whose
# last byte is missing.
METHOD = b"7777777777777777\x82\x0a\x00\x00\x00\x01\x00\x00\x00a"

SIZES = b"7777777777777777\x02\x0b\x00\x00\x00\x01\x00\x00\x00a"

TOO_LONG = b"7777777777777777\x02\x0a\x00\x00\x04\x01\x00\x00\x04a"

CUT = b"7777777777777777\x02\x0b\x00\x00\x00\x02\x00\x00\x00a"

# A part, what is changed in its files and in those of its projection, and its first fault.
DEFINITIONS = [
    (WIDE, [("columns.txt", None)], [], "columns.txt: Missing"),
    (WIDE, [("columns.txt", b"`k` UInt32\n")], [], "columns.txt: Syntax"),
    (WIDE, [("columns.txt", b"columns format version: 1\n1 columns:\n`s` String\n")], [], "columns.txt: Columns"),
    (WIDE, [("count.txt", None)], [], "count.txt: Missing"),
    (WIDE, [("count.txt", b"03")], [], "count.txt: Syntax"),
    (WIDE, [("count.txt", b"4194305")], [], "count.txt: TooLong"),
    (WIDE, [("count.txt", b"4")], [], "k.mrk2: Rows"),
    (
        WIDE,
        [("k.bin", frames([b"\x02\x00\x00\x00\x01\x00\x00\x00", b"\x03\x00\x00\x00"]))],
        [],
        "k.bin granule 0: Sorted",
    ),
    (
        WIDE,
        [("k.bin", frames([b"\x01\x00\x00\x00\x04\x00\x00\x00", b"\x03\x00\x00\x00"]))],
        [],
        "k.bin granule 1: Sorted",
    ),
    (
        COMPACT,
        [("data.bin", frames([b"\x01\x00\x00\x00\x04\x00\x00\x00", b"\x01a\x01b", b"\x03\x00\x00\x00", b"\x01c"]))],
        [],
        "data.bin granule 1: Sorted",
    ),
    (WIDE, [("primary.idx", None)], [], "primary.idx: Missing"),
    (WIDE, [("primary.idx", b"\x01\x00\x00\x00\x02\x00\x00\x00\x03\x00\x00\x00")], [], "primary.idx granule 1: Key"),
    (WIDE, [("primary.idx", b"\x01\x00\x00\x00\x03\x00\x00\x00\x03\x00\x00")], [], "primary.idx granule 2: Key"),
    (WIDE, [("primary.idx", b"\x01\x00\x00\x00\x03\x00\x00\x00\x03\x00\x00\x00\x00")], [], "primary.idx: Over"),
]

PARTITIONS = [
    (MONTH, [("partition.dat", None)], [], "partition.dat: Missing"),
    (MONTH, [("d.bin", frames([b"\x0b\x4d", b"\x2a\x4d"]))], [], "partition.dat granule 1: Partition"),
    (MONTH, [("partition.dat", b"\xa2\x16\x03\x00")], [], "partition.dat: Value"),
    (MONTH, [("minmax_d.idx", None)], [], "minmax_d.idx: Missing"),
    (MONTH, [("minmax_d.idx", b"\x0b\x4d\x0b\x4d")], [], "minmax_d.idx: Value"),
]

INDEXES = [
    (INDEXED, [("skp_idx_i.idx", None)], [], "skp_idx_i.idx: Missing"),
    (INDEXED, [("skp_idx_i.idx", b"\x00")], [], "skp_idx_i.idx at 0: Cut"),
    (INDEXED, [("skp_idx_i.mrk2", None)], [], "skp_idx_i.mrk2: Missing"),
    (INDEXED, [("skp_idx_i.mrk2", numbers([0, 0, 1]))], [], "skp_idx_i.mrk2: Length"),
    (INDEXED, [("skp_idx_i.mrk2", numbers([0, 0, 1, 35, 0]))], [], "skp_idx_i.mrk2: Length"),
    (INDEXED, [("skp_idx_i.mrk2", numbers([0, 1, 1, 35, 0, 1]))], [], "skp_idx_i.mrk2 granule 0: Place"),
    (INDEXED, [("skp_idx_i.mrk2", numbers([0, 0, 1, 34, 0, 1]))], [], "skp_idx_i.mrk2 granule 2: Place"),
    (INDEXED, [("skp_idx_j.mrk2", numbers([0, 0, 1, 0, 4, 1, 0, 2, 1]))], [], "skp_idx_j.mrk2 granule 2: Order"),
    (
        INDEXED,
        [
            (
                "skp_idx_i.idx",
                frames([b"\x01\x00\x00\x00\x00\x00\x00\x00\x08", b"\x01\x00\x00\x00\x00\x00\x00\x00\x09"]),
            ),
            ("skp_idx_i.mrk2", numbers([0, 0, 1, 34, 0, 1])),
        ],
        [],
        "skp_idx_i.idx granule 0: Value",
    ),
    (
        INDEXED,
        [
            (
                "skp_idx_i.idx",
                frames([b"\x02\x00\x00\x00\x00\x00\x00\x00\x07\x08", b"\x01\x00\x00\x00\x00\x00\x00\x00\x08"]),
            ),
        ],
        [],
        "skp_idx_i.idx granule 2: Value",
    ),
    (
        INDEXED,
        [("skp_idx_j.idx2", frames([b"\x01\x01\x02\x02\x03\x04"])), ("skp_idx_i.idx", None)],
        [],
        "skp_idx_i.idx: Missing",
    ),
    (INDEXED, [("skp_idx_j.idx2", frames([b"\x01\x01\x02\x02\x03\x04"]))], [], "skp_idx_j.idx2 granule 2: Value"),
]

PROJECTIONS = [
    (PROJECTED, [], [("columns.txt", None)], "p.proj/columns.txt: Missing"),
    (PROJECTED, [], [("count%28%29.bin", None)], "p.proj/count%28%29.bin: Missing"),
    (PROJECTED, [], [("count%28%29.bin", frames([b"\x03"]))], "p.proj: Projection"),
    (PROJECTED, [], [("sum%28v%29.bin", frames([b"\x02\x00\x00\x00\x00\x00\x00\x00"]))], "p.proj: Projection"),
    (PROJECTED, [("primary.idx", None)], [("columns.txt", None)], "primary.idx: Missing"),
]

# A part, what is changed in its files, empty files that are there too, and the first fault.
STRAYS = [
    (WIDE, [], ["a"], "a: Stray"),
    (WIDE, [], ["zz", "t.bin"], "t.bin: Stray"),
    (WIDE, [], ["data.bin"], "data.bin: Stray"),
    (WIDE, [], ["partition.dat"], "partition.dat: Stray"),
    (COMPACT, [], ["k.bin"], "k.bin: Stray"),
    (WIDE, [("count.txt", None)], ["a"], "count.txt: Missing"),
    (INDEXED, [], ["skp_idx_i.mrk3"], "skp_idx_i.mrk3: Stray"),
    (PROJECTED, [], ["p.proj/v.bin"], "p.proj/v.bin: Stray"),
    (PROJECTED, [], ["q.proj/count.txt"], "q.proj/count.txt: Stray"),
    (PROJECTED, [], ["p.proj/a/ttl.txt"], "p.proj/a/ttl.txt: Stray"),
]

# Parts, side files that may be there, and the rows.
SIDE_FILES = [
    (WIDE, ["checksums.txt", "columns_substreams.txt", "uuid.txt"], "1\ta\n2\tb\n3\tc\n"),
    (PROJECTED, ["p.proj/ttl.txt"], "1\t18446744073709551615\n1\t2\n"),
]

# Texts of columns.txt that have the form, and columns that a part of `k` UInt32 and `s` String, ordered by `k`, can't list.
OTHER_COLUMNS = [
    "columns format version: 1\n0 columns:\n",
    "columns format version: 1\n1 columns:\n`s` String\n",
    "columns format version: 1\n2 columns:\n`k` UInt32\n`k` UInt32\n",
    "columns format version: 1\n2 columns:\n`k` UInt32\n`s` FixedString(1)\n",
    "columns format version: 1\n2 columns:\n`k` UInt32\n`S` String\n",
    "columns format version: 1\n3 columns:\n`k` UInt32\n`s` String\n`t` String\n",
    "columns format version: 1\n2 columns:\n`k` UInt32\n`s`  String\n",
]

# Texts that do not have the form.
OTHER_FORMS = [
    "",
    "columns format version: 1\n",
    "columns format version: 2\n2 columns:\n`k` UInt32\n`s` String\n",
    "columns format version: 1\n02 columns:\n`k` UInt32\n`s` String\n",
    "columns format version: 1\n3 columns:\n`k` UInt32\n`s` String\n",
    "columns format version: 1\n2 columns\n`k` UInt32\n`s` String\n",
    "columns format version: 1\n2 columns:\n`k` UInt32\n`s` String",
    "columns format version: 1\n2 columns:\n`k` UInt32\n`s` String\n\n",
    "columns format version: 1\n2 columns:\nk UInt32\n`s` String\n",
    "columns format version: 1\n2 columns:\n`k`UInt32\n`s` String\n",
    "columns format version: 1\n2 columns:\n`` UInt32\n`s` String\n",
    "columns format version: 1\n2 columns:\n`k` \n`s` String\n",
    "columns format version: 1\n2 columns:\n`k UInt32\n`s` String\n",
    "columns format version: 1\r\n2 columns:\r\n`k` UInt32\r\n`s` String\r\n",
]

# Files that are changed in a Wide part, and the first fault: of the files of one substream, in the order of their rules.
WIDE_FILES = [
    ([("k.bin", None), ("k.mrk2", None)], "k.bin: Missing"),
    ([("k.bin", b"a")], "k.bin at 0: Cut"),
    ([("k.bin", METHOD)], "k.bin at 0: Method"),
    ([("k.bin", SIZES)], "k.bin at 0: Sizes"),
    ([("k.bin", TOO_LONG)], "k.bin at 0: TooLong"),
    ([("k.bin", CUT), ("k.mrk2", None)], "k.bin at 0: Cut"),
    ([("k.mrk2", None), ("s.bin", None)], "k.mrk2: Missing"),
    ([("k.mrk2", numbers([62, 0, 0]))], "k.mrk2: Length"),
    ([("k.mrk2", numbers([0, 0, 2, 33]))], "k.mrk2: Length"),
    ([("k.mrk2", numbers([9, 0, 0, 33, 0, 1, 62, 0, 0]))], "k.mrk2 granule 0: Rows"),
    ([("k.mrk2", numbers([0, 0, 2, 33, 0, 1, 62, 0, 1]))], "k.mrk2 granule 2: Rows"),
    ([("k.mrk2", numbers([0, 0, 2, 62, 0, 1, 33, 9, 0]))], "k.mrk2 granule 2: Order"),
    ([("k.mrk2", numbers([0, 0, 2, 34, 0, 1, 62, 0, 0]))], "k.mrk2 granule 1: Place"),
    ([("k.mrk2", numbers([0, 4, 2, 33, 0, 1, 62, 0, 0]))], "k.mrk2 granule 0: Place"),
    ([("k.mrk2", numbers([0, 0, 2, 33, 0, 1, 33, 3, 0]))], "k.mrk2 granule 2: Place"),
    ([("k.mrk2", numbers([0, 0, 1, 0, 8, 1, 0, 4, 1, 62, 0, 0]))], "k.mrk2 granule 2: Order"),
    ([("k.mrk2", numbers([0, 0, 2, 0, 4, 2, 62, 0, 0])), ("s.bin", None)], "k.mrk2: Rows"),
    ([("k.mrk2", numbers([0, 0, 2, 0, 4, 1, 62, 0, 0])), ("s.bin", None)], "k.bin granule 0: Short"),
    ([("k.mrk2", numbers([0, 0, 1, 33, 0, 2, 62, 0, 0]))], "k.bin granule 0: Over"),
    ([("s.bin", None)], "s.bin: Missing"),
    ([("s.bin", CUT), ("s.mrk2", None)], "s.bin at 0: Cut"),
    ([("s.mrk2", None)], "s.mrk2: Missing"),
    ([("s.mrk2", numbers([0, 0, 3, 56, 0, 0]))], "s.mrk2: Length"),
    ([("s.mrk2", numbers([0, 0, 1, 29, 0, 1, 56, 0, 0]))], "s.mrk2 granule 0: Rows"),
    ([("s.mrk2", numbers([0, 0, 2, 29, 0, 2, 56, 0, 0]))], "s.mrk2 granule 1: Rows"),
    (
        [("s.bin", frames([b"\x01a\x01b", b"\x81\x00c"])), ("s.mrk2", numbers([0, 0, 2, 29, 0, 1, 57, 0, 0]))],
        "s.bin granule 1: Length",
    ),
    (
        [
            ("s.bin", frames([b"\x01a\x01b", b"\x81\x80\x80\x08c"])),
            ("s.mrk2", numbers([0, 0, 2, 29, 0, 1, 59, 0, 0])),
        ],
        "s.bin granule 1: TooLong",
    ),
]

# Sizes of arrays, of which the second is above the limit.
LONG = frames([b"\x00\x00\x00\x00\x00\x00\x00\x00", b"\x02\x00\x00\x00\x00\x00\x10\x00"])

# All files of a column are judged before its values, and in a granule its substreams in their order.
ARRAYS = [
    ([("a.size0.bin", LONG), ("a.null.bin", None)], "a.null.bin: Missing"),
    ([("a.size0.bin", LONG), ("a.null.bin", frames([b"\x00\x02"]))], "a.size0.bin granule 1: TooLong"),
    ([("a.null.bin", frames([b"\x00\x02"])), ("a.bin", frames([b"\x03a'b\x09"]))], "a.null.bin granule 1: NullByte"),
]

# Of numbers and NULL, in one granule.
NULLS = [
    ([("n.bin", frames([b"\x01\x07"])), ("n.mrk2", numbers([0, 0, 3, 27, 0, 0]))], "n.bin granule 0: Short"),
    (
        [("n.null.bin", frames([b"\x00\x01\x00\x00"])), ("n.null.mrk2", numbers([0, 0, 3, 29, 0, 0]))],
        "n.null.bin granule 0: Over",
    ),
]

# Of the two files of a Compact part.
JOINED = [
    ([("data.bin", None)], "data.bin: Missing"),
    ([("data.bin", METHOD), ("data.mrk3", b"")], "data.bin at 0: Method"),
    ([("data.bin", CUT)], "data.bin at 0: Cut"),
    ([("data.bin", SIZES)], "data.bin at 0: Sizes"),
    ([("data.bin", TOO_LONG)], "data.bin at 0: TooLong"),
    ([("data.mrk3", None)], "k.bin: Missing"),
    ([("data.mrk3", numbers([0, 0, 2, 33, 0, 1, 118, 0, 0]))], "data.mrk3: Length"),
    ([("data.mrk3", numbers([0, 0, 33, 0, 0, 62, 0, 91, 0, 1, 118, 0, 118, 0, 0]))], "data.mrk3 granule 0: Rows"),
    ([("data.mrk3", numbers([0, 0, 33, 0, 2, 62, 0, 33, 0, 1, 118, 0, 118, 0, 0]))], "data.mrk3 granule 1: Order"),
    ([("data.mrk3", numbers([0, 0, 33, 0, 2, 62, 0, 91, 0, 1, 91, 0, 118, 0, 0]))], "data.mrk3 granule 2: Place"),
    ([("data.mrk3", numbers([0, 0, 0, 4, 1, 62, 0, 91, 0, 1, 118, 0, 118, 0, 0]))], "data.mrk3: Rows"),
    ([("data.mrk3", numbers([0, 0, 0, 4, 2, 62, 0, 91, 0, 1, 118, 0, 118, 0, 0]))], "data.bin granule 0: Short"),
    ([("data.mrk3", numbers([0, 0, 33, 2, 2, 62, 0, 91, 0, 1, 118, 0, 118, 0, 0]))], "data.bin granule 0: Over"),
]

# A column's substreams follow each other, so that Over is judged after the last of them alone.
VALUES = [
    (
        COMPACT,
        (
            [
                (
                    "data.bin",
                    frames([b"\x01\x00\x00\x00\x02\x00\x00\x00", b"\x81\x00ab", b"\x03\x00\x00\x00", b"\x01c"]),
                ),
            ],
            "data.bin granule 0: Length",
        ),
    ),
    (
        COMPACT,
        (
            [
                (
                    "data.bin",
                    frames([b"\x01\x00\x00\x00\x02\x00\x00\x00", b"\x81\x80\x80\x08", b"\x03\x00\x00\x00", b"\x01c"]),
                ),
            ],
            "data.bin granule 0: TooLong",
        ),
    ),
    (
        COMPACT,
        (
            [
                (
                    "data.bin",
                    frames([b"\x01\x00\x00\x00\x02\x00\x00\x00", b"\x01a\x02b", b"\x03\x00\x00\x00", b"\x01c"]),
                ),
            ],
            "data.bin granule 0: Short",
        ),
    ),
    (
        COMPACT,
        (
            [
                (
                    "data.bin",
                    frames([b"\x01\x00\x00\x00\x02\x00\x00\x00", b"\x01a\x00b", b"\x03\x00\x00\x00", b"\x01c"]),
                ),
            ],
            "data.bin granule 0: Over",
        ),
    ),
    (
        COMPACT_NULLABLE,
        ([("data.bin", frames([b"\x01\x02\x03", b"\x00\x02\x00\x01\x07\x02"]))], "data.bin granule 0: NullByte"),
    ),
    (
        COMPACT_NULLABLE,
        (
            [
                ("data.bin", frames([b"\x01\x02\x03", b"\x00\x01"])),
                ("data.mrk3", numbers([0, 0, 28, 0, 3, 55, 0, 55, 0, 0])),
            ],
            "data.bin granule 0: Short",
        ),
    ),
    (
        COMPACT_NULLABLE,
        (
            [
                ("data.bin", frames([b"\x01\x02\x03", b"\x00\x01\x00\x01\x07"])),
                ("data.mrk3", numbers([0, 0, 28, 0, 3, 58, 0, 58, 0, 0])),
            ],
            "data.bin granule 0: Short",
        ),
    ),
    (
        COMPACT_NULLABLE,
        (
            [
                ("data.bin", frames([b"\x01\x02\x03", b"\x00\x01\x00\x01\x07\x02\x09"])),
                ("data.mrk3", numbers([0, 0, 28, 0, 3, 60, 0, 60, 0, 0])),
            ],
            "data.bin granule 0: Over",
        ),
    ),
    (
        COMPACT_NESTED,
        (
            [
                (
                    "data.bin",
                    frames(
                        [
                            b"\x01",
                            b"\x00\x00\x00\x00\x00\x00\x00\x00",
                            b"\x02",
                            b"\x02\x00\x00\x00\x00\x00\x10\x00\x00\x01\x03a'b\x00",
                        ],
                    ),
                ),
            ],
            "data.bin granule 1: TooLong",
        ),
    ),
    (
        COMPACT_NESTED,
        (
            [
                (
                    "data.bin",
                    frames(
                        [
                            b"\x01",
                            b"\x00\x00\x00\x00\x00\x00\x00\x00",
                            b"\x02",
                            b"\x02\x00\x00\x00\x00\x00\x00\x00\x00\x02\x03a'b\x00",
                        ],
                    ),
                ),
            ],
            "data.bin granule 1: NullByte",
        ),
    ),
]

# Two faults of neighbouring steps in a Wide part, in the order of the steps: the first is named.
WIDE_PAIRS = [
    # fewer than 25 bytes, and then the method
    ([("k.bin", b"7777777777777777\x82")], "k.bin at 0: Cut"),
    # the method, and then the sizes
    ([("k.bin", b"7777777777777777\x82\x0b\x00\x00\x00\x01\x00\x00\x00a")], "k.bin at 0: Method"),
    # the sizes, and then the limit
    ([("k.bin", b"7777777777777777\x02\x0b\x00\x00\x04\x01\x00\x00\x04a")], "k.bin at 0: Sizes"),
    # the limit, and then the file's end
    ([("k.bin", TOO_LONG)], "k.bin at 0: TooLong"),
    # a frame, and then the next one
    (
        [
            (
                "k.bin",
                b"7777777777777777\x02\x0a\x00\x00\x00\x02\x00\x00\x00a7777777777777777\x82\x0a\x00\x00\x00\x01\x00\x00\x00a",
            ),
        ],
        "k.bin at 0: Sizes",
    ),
    # frames, and then the marks file
    ([("k.bin", METHOD), ("k.mrk2", None)], "k.bin at 0: Method"),
    # the length of the marks file, and then its rows
    ([("k.mrk2", numbers([0, 0, 0, 33]))], "k.mrk2: Length"),
    # an entry's rows, and then its mark's order
    ([("k.mrk2", numbers([0, 0, 1, 33, 0, 1, 0, 0, 0, 62, 0, 0]))], "k.mrk2 granule 2: Rows"),
    # a mark's order, and then its position
    ([("k.mrk2", numbers([0, 0, 1, 33, 0, 1, 5, 0, 1, 62, 0, 0]))], "k.mrk2 granule 2: Order"),
    # the end, and then the order of positions
    ([("k.mrk2", numbers([0, 0, 1, 0, 8, 2, 0, 4, 0]))], "k.mrk2 granule 2: Place"),
    # an entry, and then the next one
    ([("k.mrk2", numbers([0, 4, 2, 33, 0, 0, 62, 0, 0]))], "k.mrk2 granule 0: Place"),
    # entries, and then the sum of the rows
    ([("k.mrk2", numbers([0, 0, 2, 33, 0, 2, 62, 0, 1]))], "k.mrk2 granule 2: Rows"),
    # the sum of the rows, and then the values
    ([("k.mrk2", numbers([0, 0, 2, 0, 4, 2, 62, 0, 0]))], "k.mrk2: Rows"),
    # a granule's values, and then the next one's
    ([("k.mrk2", numbers([0, 0, 2, 0, 4, 1, 62, 0, 0]))], "k.bin granule 0: Short"),
    # a column, and then the next one's files
    ([("k.mrk2", numbers([0, 0, 1, 33, 0, 2, 62, 0, 0])), ("s.bin", CUT)], "k.bin granule 0: Over"),
    # entries of another marks file, and then their number
    ([("s.mrk2", numbers([0, 0, 3, 56, 0, 1]))], "s.mrk2 granule 1: Rows"),
    # the number of entries, and then the rows of each
    ([("s.mrk2", numbers([0, 0, 3, 56, 0, 0]))], "s.mrk2: Length"),
    # the rows of each granule, and then the values
    ([("s.mrk2", numbers([0, 0, 1, 29, 0, 2, 56, 0, 0]))], "s.mrk2 granule 0: Rows"),
    # the form of a length, and then its limit
    (
        [
            ("s.bin", frames([b"\x01a\x01b", b"\x81\x80\x80\x88\x00c"])),
            ("s.mrk2", numbers([0, 0, 2, 29, 0, 1, 60, 0, 0])),
        ],
        "s.bin granule 1: Length",
    ),
    # the limit of a length, and then the bytes
    (
        [
            ("s.bin", frames([b"\x01a\x01b", b"\x81\x80\x80\x08c"])),
            ("s.mrk2", numbers([0, 0, 2, 29, 0, 1, 59, 0, 0])),
        ],
        "s.bin granule 1: TooLong",
    ),
]

# The same in a Compact part.
JOINED_PAIRS = [
    # frames, and then the marks file
    ([("data.bin", SIZES), ("data.mrk3", b"\x00")], "data.bin at 0: Sizes"),
    # the length of the marks file, and then its rows
    ([("data.mrk3", numbers([0, 0, 33, 0, 0, 62, 0]))], "data.mrk3: Length"),
    # an entry's rows, and then its mark's order
    (
        [("data.mrk3", numbers([0, 0, 33, 0, 1, 62, 0, 91, 0, 1, 33, 0, 33, 0, 0, 118, 0, 118, 0, 0]))],
        "data.mrk3 granule 2: Rows",
    ),
    # a mark's order, and then its position
    ([("data.mrk3", numbers([0, 0, 33, 0, 2, 5, 0, 91, 0, 1, 118, 0, 118, 0, 0]))], "data.mrk3 granule 1: Order"),
    # the end, and then the order of positions
    ([("data.mrk3", numbers([0, 0, 33, 0, 2, 62, 0, 91, 1, 1, 91, 0, 118, 0, 0]))], "data.mrk3 granule 2: Place"),
    # a mark, and then the next one of the entry
    ([("data.mrk3", numbers([0, 4, 0, 0, 2, 62, 0, 91, 0, 1, 118, 0, 118, 0, 0]))], "data.mrk3 granule 0: Place"),
    # entries, and then the sum of the rows
    ([("data.mrk3", numbers([0, 0, 33, 0, 2, 62, 0, 91, 0, 2, 118, 0, 118, 0, 1]))], "data.mrk3 granule 2: Rows"),
    # the sum of the rows, and then the values
    ([("data.mrk3", numbers([0, 0, 0, 4, 1, 62, 0, 91, 0, 1, 118, 0, 118, 0, 0]))], "data.mrk3: Rows"),
    # a granule's values, and then the next one's
    ([("data.mrk3", numbers([0, 0, 33, 1, 2, 62, 0, 62, 2, 1, 118, 0, 118, 0, 0]))], "data.bin granule 0: Over"),
    # a column's last granule, and then the next column's first
    (
        [
            ("data.bin", frames([b"\x01\x00\x00\x00\x02\x00\x00\x00", b"\x01a\x02b", b"\x03\x00\x00\x00", b"\x01c"])),
            ("data.mrk3", numbers([0, 0, 33, 0, 2, 62, 0, 62, 2, 1, 118, 0, 118, 0, 0])),
        ],
        "data.bin granule 1: Short",
    ),
]

# The same of numbers and NULL in a Compact part.
NULL_PAIRS = [
    # a null map, and then its items
    (
        [
            ("data.bin", frames([b"\x01\x02\x03", b"\x00\x02\x00\x01"])),
            ("data.mrk3", numbers([0, 0, 28, 0, 3, 57, 0, 57, 0, 0])),
        ],
        "data.bin granule 0: NullByte",
    ),
    # a null map that is too short, and its items
    (
        [
            ("data.bin", frames([b"\x01\x02\x03", b"\x00\x02"])),
            ("data.mrk3", numbers([0, 0, 28, 0, 3, 55, 0, 55, 0, 0])),
        ],
        "data.bin granule 0: NullByte",
    ),
]

# Texts of count.txt for a table of five columns, and what is wrong with each.
COUNTS = [
    ("", "Syntax"),
    ("0", "Syntax"),
    ("03", "Syntax"),
    ("00", "Syntax"),
    ("3\n", "Syntax"),
    (" 3", "Syntax"),
    ("+3", "Syntax"),
    ("-3", "Syntax"),
    ("3.0", "Syntax"),
    ("0x3", "Syntax"),
    ("4194305", "TooLong"),
    ("3355444", "TooLong"),
    ("18446744073709551615", "TooLong"),
    ("18446744073709551616", "TooLong"),
    ("18446744073709551617", "TooLong"),
    ("99999999999999999999999999", "TooLong"),
]

# A table of five columns: so many rows of them would be too many cells.
FIVE = dict(
    table="CREATE TABLE t (a UInt8, b UInt8, c UInt8, d UInt8, e UInt8) ENGINE = MergeTree ORDER BY a",
    files=[("columns.txt", b"columns format version: 1\n5 columns:\n" + b"".join(b"`%c` UInt8\n" % name for name in b"abcde"))],
    projection=[],
)

# Parts, what is changed in their files, what is printed of the check, and the rows.
ACCEPTED = [
    (WIDE, [], "3 rows in 2", "1\ta\n2\tb\n3\tc\n"),
    (COMPACT, [], "3 rows in 2", "1\ta\n2\tb\n3\tc\n"),
    (MONTH, [], "2 rows in 2", "2024-01-01\t1\n2024-01-31\t2\n"),
    (DAY, [], "1 rows in 1", "2024-01-01\t1\n"),
    (INDEXED, [], "3 rows in 3", "1\t7\n2\t8\n3\t9\n"),
    (PROJECTED, [], "2 rows in 1", "1\t18446744073709551615\n1\t2\n"),
    (NESTED, [], "2 rows in 2", "1\t[]\n2\t['a\\'b',NULL]\n"),
    (COMPACT_NESTED, [], "2 rows in 2", "1\t[]\n2\t['a\\'b',NULL]\n"),
    (NULLABLE, [], "3 rows in 1", "1\t1\n2\t\\N\n3\t2\n"),
    (COMPACT_NULLABLE, [], "3 rows in 1", "1\t1\n2\t\\N\n3\t2\n"),
    # frames in another cut
    (
        WIDE,
        [
            ("k.bin", frames([b"\x01\x00\x00\x00\x02\x00\x00\x00\x03\x00\x00\x00"])),
            ("k.mrk2", numbers([0, 0, 2, 0, 8, 1, 0, 12, 0])),
            ("s.bin", frames([b"\x01", b"a\x01", b"b\x01c"])),
            ("s.mrk2", numbers([0, 0, 2, 53, 1, 1, 81, 0, 0])),
        ],
        "3 rows in 2",
        "1\ta\n2\tb\n3\tc\n",
    ),
    (
        COMPACT,
        [
            ("data.bin", frames([b"\x01\x00\x00\x00\x02\x00\x00\x00\x01a\x01b\x03\x00\x00\x00\x01c"])),
            ("data.mrk3", numbers([0, 0, 0, 8, 2, 0, 12, 0, 16, 1, 43, 0, 43, 0, 0])),
        ],
        "3 rows in 2",
        "1\ta\n2\tb\n3\tc\n",
    ),
    # columns in another order, and the values of a set
    (
        WIDE,
        [("columns.txt", b"columns format version: 1\n2 columns:\n`s` String\n`k` UInt32\n")],
        "3 rows in 2",
        "1\ta\n2\tb\n3\tc\n",
    ),
    (
        INDEXED,
        [("skp_idx_i.idx", frames([b"\x02\x00\x00\x00\x00\x00\x00\x00\x07\x08", b"\x01\x00\x00\x00\x00\x00\x00\x00\x09"]))],
        "3 rows in 3",
        "1\t7\n2\t8\n3\t9\n",
    ),
]

CHECK = ["check", "t.sql", "p", "1"]
OTHERS = [["rows", "t.sql", "p"], ["show", "t.sql", "p"], ["select", "t.sql", "p", "SELECT count() FROM t ORDER BY ALL"]]


def files_of(part, changed, inside=(), more=()):
    """The files of a part, some of them changed or absent, and empty ones that are there too."""
    files = {f"p/{name}": held for name, held in [*part["files"], *changed]}
    files |= {f"p/p.proj/{name}": held for name, held in [*part["projection"], *inside]}
    files |= {f"p/{name}": b"" for name in more}
    return {"t.sql": part["table"].encode()} | {name: held for name, held in files.items() if held is not None}


def faulty(part, changed, text, inside=(), more=()):
    """A part of which a check names this fault first, and so does each command that checks it."""
    steps = [Step(words, status=1, note=f"p: {text}") for words in [CHECK, *OTHERS]]
    return Story(text, files_of(part, changed, inside, more), steps)


def stories():
    for part, changed, counted, rows in ACCEPTED:
        steps = [Step(CHECK, stdout=f"accepted {counted} granules\n"), Step(["rows", "t.sql", "p"], stdout=rows)]
        yield Story(part["table"], files_of(part, changed), steps)
    for part, changed, inside, text in [*DEFINITIONS, *PARTITIONS, *INDEXES, *PROJECTIONS]:
        yield faulty(part, changed, text, inside)
    for part, changed, more, text in STRAYS:
        yield faulty(part, changed, text, more=more)
    for part, more, rows in SIDE_FILES:
        yield Story("side files", files_of(part, [], more=more), [Step(["rows", "t.sql", "p"], stdout=rows)])
    for why, texts in (("Columns", OTHER_COLUMNS), ("Syntax", OTHER_FORMS)):
        for text in texts:
            yield faulty(WIDE, [("columns.txt", text.encode())], f"columns.txt: {why}")
    for text, why in COUNTS:
        yield faulty(FIVE, [("count.txt", text.encode())], f"count.txt: {why}")
    for part, cases in (
        (WIDE, WIDE_FILES),
        (NESTED, ARRAYS),
        (NULLABLE, NULLS),
        (COMPACT, JOINED),
        (WIDE, WIDE_PAIRS),
        (COMPACT, JOINED_PAIRS),
        (COMPACT_NULLABLE, NULL_PAIRS),
    ):
        for changed, text in cases:
            yield faulty(part, changed, text)
    for part, (changed, text) in VALUES:
        yield faulty(part, changed, text)
