"""Parts older than their table: what is absent of a part that was written before a column, an index or a projection was added."""

from calls import Step, Story, create, frames, numbers

CLAUSES = "ORDER BY k SETTINGS index_granularity = 2, min_bytes_for_wide_part = 0"

COLUMNS = "k UInt32, s String"

# The text of the table that the part was written under, and the same with something that was added later.
OLD = create(COLUMNS, CLAUSES)

WITH_COLUMN = create(f"{COLUMNS}, n Nullable(UInt8)", CLAUSES)

WITH_INDEX = create(f"{COLUMNS}, INDEX i k TYPE minmax GRANULARITY 2", CLAUSES)

WITH_PROJECTION = create(f"{COLUMNS}, PROJECTION p (SELECT s, k ORDER BY s)", CLAUSES)

# Three rows in two granules.
PART = [
    ("columns.txt", b"columns format version: 1\n2 columns:\n`k` UInt32\n`s` String\n"),
    ("count.txt", b"3"),
    ("k.bin", frames([b"\x01\x00\x00\x00\x02\x00\x00\x00", b"\x03\x00\x00\x00"])),
    ("k.mrk2", numbers([0, 0, 2, 33, 0, 1, 62, 0, 0])),
    ("primary.idx", b"\x01\x00\x00\x00\x03\x00\x00\x00\x03\x00\x00\x00"),
    ("s.bin", frames([b"\x01a\x01b", b"\x01c"])),
    ("s.mrk2", numbers([0, 0, 2, 29, 0, 1, 56, 0, 0])),
]

# The same part, Compact.
COMPACT = [
    ("columns.txt", b"columns format version: 1\n2 columns:\n`k` UInt32\n`s` String\n"),
    ("count.txt", b"3"),
    ("data.bin", frames([b"\x01\x00\x00\x00\x02\x00\x00\x00", b"\x01a\x01b", b"\x03\x00\x00\x00", b"\x01c"])),
    ("data.mrk3", numbers([0, 0, 33, 0, 2, 62, 0, 91, 0, 1, 118, 0, 118, 0, 0])),
    ("primary.idx", b"\x01\x00\x00\x00\x03\x00\x00\x00\x03\x00\x00\x00"),
]

INDEX = [
    ("skp_idx_i.idx2", frames([b"\x01\x00\x00\x00\x03\x00\x00\x00"])),
    ("skp_idx_i.mrk2", numbers([0, 0, 1])),
]

PROJECTION = [
    ("p.proj/columns.txt", b"columns format version: 1\n2 columns:\n`k` UInt32\n`s` String\n"),
    ("p.proj/count.txt", b"3"),
    ("p.proj/k.bin", frames([b"\x01\x00\x00\x00\x02\x00\x00\x00\x03\x00\x00\x00"])),
    ("p.proj/k.mrk2", numbers([0, 0, 3, 37, 0, 0])),
    ("p.proj/primary.idx", b"\x01a\x01c"),
    ("p.proj/s.bin", frames([b"\x01a\x01b\x01c"])),
    ("p.proj/s.mrk2", numbers([0, 0, 3, 31, 0, 0])),
]

# A column, an index and a projection, added one after another.
NEWER = [
    create(f"{COLUMNS}, n Nullable(UInt8)", CLAUSES),
    create(f"{COLUMNS}, n Nullable(UInt8), INDEX i k TYPE minmax GRANULARITY 2", CLAUSES),
    create(f"{COLUMNS}, n Nullable(UInt8), INDEX i k TYPE minmax GRANULARITY 2, PROJECTION p (SELECT s, k ORDER BY s)", CLAUSES),
]


def written(payloads):
    """Frames as the writer makes them."""
    return frames(payloads, b"\x00")


# What is written of the part's rows under the newest of these texts.
NEWEST_PART = [
    ("columns.txt", b"columns format version: 1\n3 columns:\n`k` UInt32\n`s` String\n`n` Nullable(UInt8)\n"),
    ("count.txt", b"3"),
    ("k.bin", written([b"\x01\x00\x00\x00\x02\x00\x00\x00", b"\x03\x00\x00\x00"])),
    ("k.mrk2", numbers([0, 0, 2, 33, 0, 1, 62, 0, 0])),
    ("n.bin", written([b"\x00\x00", b"\x00"])),
    ("n.mrk2", numbers([0, 0, 2, 27, 0, 1, 53, 0, 0])),
    ("n.null.bin", written([b"\x01\x01", b"\x01"])),
    ("n.null.mrk2", numbers([0, 0, 2, 27, 0, 1, 53, 0, 0])),
    ("primary.idx", b"\x01\x00\x00\x00\x03\x00\x00\x00\x03\x00\x00\x00"),
    ("s.bin", written([b"\x01a\x01b", b"\x01c"])),
    ("s.mrk2", numbers([0, 0, 2, 29, 0, 1, 56, 0, 0])),
    ("skp_idx_i.idx2", written([b"\x01\x00\x00\x00\x03\x00\x00\x00"])),
    ("skp_idx_i.mrk2", numbers([0, 0, 1])),
    ("p.proj/columns.txt", b"columns format version: 1\n2 columns:\n`k` UInt32\n`s` String\n"),
    ("p.proj/count.txt", b"3"),
    ("p.proj/k.bin", written([b"\x01\x00\x00\x00\x02\x00\x00\x00", b"\x03\x00\x00\x00"])),
    ("p.proj/k.mrk2", numbers([0, 0, 2, 33, 0, 1, 62, 0, 0])),
    ("p.proj/primary.idx", b"\x01a\x01c\x01c"),
    ("p.proj/s.bin", written([b"\x01a\x01b", b"\x01c"])),
    ("p.proj/s.mrk2", numbers([0, 0, 2, 29, 0, 1, 56, 0, 0])),
]

# Columns of each type that may be absent, and the default as a line has it.
DEFAULTS = [
    ("UInt8", "0"),
    ("UInt64", "0"),
    ("Int32", "0"),
    ("FixedString(3)", "\\0\\0\\0"),
    ("String", ""),
    ("Date", "1970-01-01"),
    ("Nullable(Date)", "\\N"),
    ("Nullable(String)", "\\N"),
    ("Array(String)", "[]"),
    ("Array(Array(Nullable(UInt16)))", "[]"),
]

# Later texts of the table, what is changed in the part's files or added to them, and the first fault.
FAULTS = [
    # a sort column, and a column of the partition key
    (OLD, [("columns.txt", b"columns format version: 1\n1 columns:\n`s` String\n")], "columns.txt: Columns"),
    (OLD, [("columns.txt", b"columns format version: 1\n0 columns:\n")], "columns.txt: Columns"),
    (create(f"{COLUMNS}, d Date", f"PARTITION BY d {CLAUSES}"), [], "columns.txt: Columns"),
    # a column that the table hasn't, one of another type, and one twice
    (create("k UInt32", CLAUSES), [], "columns.txt: Columns"),
    (create("k UInt32, s Nullable(String)", CLAUSES), [], "columns.txt: Columns"),
    (
        WITH_COLUMN,
        [("columns.txt", b"columns format version: 1\n3 columns:\n`k` UInt32\n`s` String\n`s` String\n")],
        "columns.txt: Columns",
    ),
    # the files of a column that isn't listed
    (OLD, [("columns.txt", b"columns format version: 1\n1 columns:\n`k` UInt32\n")], "s.bin: Stray"),
    (WITH_COLUMN, [("n.bin", b"")], "n.bin: Stray"),
    (WITH_COLUMN, [("n.null.mrk2", b"")], "n.null.mrk2: Stray"),
    # a column that is listed, without its files
    (
        WITH_COLUMN,
        [("columns.txt", b"columns format version: 1\n3 columns:\n`k` UInt32\n`s` String\n`n` Nullable(UInt8)\n")],
        "n.null.bin: Missing",
    ),
    # one file of an index
    (WITH_INDEX, [("skp_idx_i.idx2", b"")], "skp_idx_i.mrk2: Missing"),
    (WITH_INDEX, INDEX[:1], "skp_idx_i.mrk2: Missing"),
    (WITH_INDEX, INDEX[1:], "skp_idx_i.idx2: Missing"),
    (WITH_INDEX, [("skp_idx_i.mrk2", b"")], "skp_idx_i.idx2: Missing"),
    # files of another kind or another layout
    (WITH_INDEX, [("skp_idx_i.idx", b"")], "skp_idx_i.idx: Stray"),
    (WITH_INDEX, [("skp_idx_i.mrk3", b"")], "skp_idx_i.mrk3: Stray"),
    # one file of a projection, even one that would be passed over or a stray
    (WITH_PROJECTION, PROJECTION[1:], "p.proj/columns.txt: Missing"),
    (WITH_PROJECTION, PROJECTION[:1], "p.proj/count.txt: Missing"),
    (WITH_PROJECTION, [("p.proj/checksums.txt", b"")], "p.proj/columns.txt: Missing"),
    (WITH_PROJECTION, [("p.proj/a/b", b"")], "p.proj/columns.txt: Missing"),
    (WITH_PROJECTION, [("p.proj0/columns.txt", b"")], "p.proj0/columns.txt: Stray"),
    # a projection has all its columns
    (
        WITH_PROJECTION,
        PROJECTION + [("p.proj/columns.txt", b"columns format version: 1\n1 columns:\n`s` String\n")],
        "p.proj/columns.txt: Columns",
    ),
    # an index and a projection of the old text are strays under one without them
    (OLD, INDEX, "skp_idx_i.idx2: Stray"),
    (OLD, PROJECTION, "p.proj/columns.txt: Stray"),
]

CHECK = ["check", "t.sql", "p", "1"]

SHOWN = "kind Wide\nrows 3\ngranules 2\ncolumn k UInt32\ncolumn s String\n"

GRANULES = "granule 0 2\t1\ngranule 1 1\t3\nlast\t3\n"

ROWS = ["rows", "t.sql", "p"]

QUERY = "SELECT n FROM part WHERE k < 3 ORDER BY ALL"


def below(folder, files):
    return {f"{folder}/{name}": held for name, held in files}


def files_of(table, files):
    return {"t.sql": table.encode()} | below("p", files)


def absent_column(name, table, files, columns):
    """A part without a column, which reads as NULL, and is written by a merge."""
    steps = [
        Step(CHECK, stdout="accepted 3 rows in 2 granules\n"),
        Step(ROWS, stdout="1\ta\t\\N\n2\tb\t\\N\n3\tc\t\\N\n"),
        Step(["select", "t.sql", "p", QUERY], stdout="\\N\n\\N\n"),
        Step(["select", "t.sql", "p", "SELECT n, count() FROM part GROUP BY n ORDER BY ALL"], stdout="\\N\t3\n"),
        Step(["select", "t.sql", "p", "SELECT k FROM part WHERE n >= 0 ORDER BY ALL"]),
        Step(["show", "t.sql", "p"], stdout=columns + GRANULES),
        Step(["merge", "t.sql", "1", "q", "p"], files={"q/n.null.bin": frames([b"\x01\x01", b"\x01"], b"\x00")}),
        Step(["write", "t.sql", "w", "1"], "1\ta\t\\N\n2\tb\t\\N\n3\tc\t\\N\n"),
    ]
    return Story(name, files_of(table, files), steps)


def added_one_after_another():
    """A part that was written before a column, an index and a projection were added, under each text in turn."""
    rows = "1\ta\t\\N\n2\tb\t\\N\n3\tc\t\\N\n"
    lines = SHOWN + "column n Nullable(UInt8)\nindex i minmax 2\nprojection p 3 rows 2 granules\n" + GRANULES
    files = {"t0.sql": OLD.encode()} | {f"t{place}.sql": text.encode() for place, text in enumerate(NEWER, 1)}
    steps = [Step(["write", "t0.sql", "p", "1"], "3\tc\n1\ta\n2\tb\n")]
    for table in ("t1.sql", "t2.sql", "t3.sql"):
        steps += [
            Step(["check", table, "p", "1"], stdout="accepted 3 rows in 2 granules\n"),
            Step(["show", table, "p"], stdout=SHOWN + GRANULES),
            Step(["rows", table, "p"], stdout=rows),
            Step(["select", table, "p", QUERY], stdout="\\N\n\\N\n"),
        ]
    steps += [
        Step(["merge", "t3.sql", "1", "q", "p"], files=below("q", NEWEST_PART)),
        Step(["write", "t3.sql", "w", "4"], rows, files=below("w", NEWEST_PART)),
        Step(["show", "t3.sql", "q"], stdout=lines),
        Step(["check", "t3.sql", "q", "1"], stdout="accepted 3 rows in 2 granules\n"),
        Step(["check", "t2.sql", "q", "1"], status=1, note="q: p.proj/columns.txt: Stray"),
        Step(["check", "t0.sql", "q", "1"], status=1, note="q: columns.txt: Columns"),
        Step(["merge", "t3.sql", "1", "both", "p", "q"]),
        Step(["rows", "t3.sql", "both"], stdout="".join(line + "\n" for line in rows.splitlines() for _ in "pq")),
    ]
    return Story("added one after another", files, steps)


def default(type_name, text):
    """An absent column of a type."""
    table = create(f"{COLUMNS}, c {type_name}", CLAUSES)
    rows = "".join(f"{key}\t{value}\t{text}\n" for key, value in ((1, "a"), (2, "b"), (3, "c")))
    steps = [Step(ROWS, stdout=rows), Step(["merge", "t.sql", "1", "q", "p"]), Step(["rows", "t.sql", "q"], stdout=rows)]
    return Story(f"the default of {type_name}", files_of(table, PART), steps)


def stories():
    yield added_one_after_another()
    yield absent_column("a column is absent", WITH_COLUMN, PART, SHOWN)
    yield absent_column("a column of a Compact part is absent", WITH_COLUMN, COMPACT, SHOWN.replace("Wide", "Compact"))
    yield from (default(*it) for it in DEFAULTS)
    for name, table, files, lines in (
        ("an index is absent", WITH_INDEX, PART, ""),
        ("an index is there", WITH_INDEX, PART + INDEX, "index i minmax 2\n"),
        ("a projection is absent", WITH_PROJECTION, PART, ""),
        ("a projection is there", WITH_PROJECTION, PART + PROJECTION, "projection p 3 rows 1 granules\n"),
    ):
        steps = [Step(CHECK, stdout="accepted 3 rows in 2 granules\n"), Step(["show", "t.sql", "p"], stdout=SHOWN + lines + GRANULES)]
        yield Story(name, files_of(table, files), steps)
    for table, changed, text in FAULTS:
        yield Story(text, files_of(table, PART + changed), [Step(CHECK, status=1, note=f"p: {text}")])
