"""Parts at the limits: every command is done with as many rows, cells and bytes as a part may have."""

from calls import Step, Story, create, refused

ROWS = 4_194_304  # rows of a part; with four columns they are 16,777,216 cells
TEXT = 16_384  # bytes of a long text, whose length takes three bytes more
LONG_ROWS = 3_639  # rows of such a text and a UInt32, of which nine copies take 536,821,641 of 536,870,912 bytes
PROJECTIONS = "abcdefgh"
COUNT_AND_SUM = "SELECT count(), sum(k) FROM t ORDER BY ALL"


def granules(rows, each):
    """The lines that `show` prints of granules of so many rows, where the key of row k is k."""
    lines = [f"granule {at} {min(each, rows - first)}\t{first}\n" for at, first in enumerate(range(0, rows, each))]
    return "".join(lines) + f"last\t{rows - 1}\n"


def commands(lines, shape, each):
    """Every command over a part of these lines, row k the line of key k, and over the merge of its even and odd rows."""
    rows = len(lines)
    accepted = f"accepted {rows} rows in {-(-rows // each)} granules\n"
    return [
        Step(["write", "t.sql", "p", "4"], "".join(reversed(lines))),
        Step(["check", "t.sql", "p", "4"], stdout=accepted),
        Step(["rows", "t.sql", "p"], stdout="".join(lines)),
        Step(["show", "t.sql", "p"], stdout=shape + granules(rows, each)),
        Step(["select", "t.sql", "p", COUNT_AND_SUM], stdout=f"{rows}\t{rows * (rows - 1) // 2}\n"),
        Step(["write", "t.sql", "even", "1"], "".join(lines[::2])),
        Step(["write", "t.sql", "odd", "1"], "".join(lines[1::2])),
        Step(["merge", "t.sql", "4", "both", "odd", "even"]),
        Step(["rows", "t.sql", "both"], stdout="".join(lines)),
    ]


def many_rows():
    """The most rows and the most cells."""
    lines = [f"{k}\t{k % 251}\t{k % 241}\t{k % 239}\n" for k in range(ROWS)]
    names = "abc"
    table = create("k UInt32, " + ", ".join(f"{name} UInt8" for name in names), "ORDER BY k")
    columns = "column k UInt32\n" + "".join(f"column {name} UInt8\n" for name in names)
    shape = f"kind Wide\nrows {ROWS}\ngranules {ROWS // 8192}\n{columns}"
    more = [
        refused(["write", "t.sql", "q", "1"], "too much: Rows above 4194304", "".join(lines) + lines[0]),
        refused(["merge", "t.sql", "1", "q", "p", "even"], "too much: Rows above 4194304"),
    ]
    return Story("the most rows and cells", {"t.sql": table.encode()}, commands(lines, shape, 8192) + more)


def many_bytes():
    """Nearly the most bytes: long texts, and eight projections that store them again. With one row more it is refused."""
    lines = [f"{k}\t{chr(97 + k % 26) * TEXT}\n" for k in range(LONG_ROWS)]
    projections = ", ".join(f"PROJECTION {name} (SELECT * ORDER BY k)" for name in PROJECTIONS)
    table = create(f"k UInt32, s String, {projections}", "ORDER BY k")
    each = 640  # rows until a granule has 10,485,760 bytes
    count = -(-LONG_ROWS // each)
    shape = f"kind Wide\nrows {LONG_ROWS}\ngranules {count}\ncolumn k UInt32\ncolumn s String\n"
    shape += "".join(f"projection {name} {LONG_ROWS} rows {count} granules\n" for name in PROJECTIONS)
    more = [refused(["write", "t.sql", "q", "1"], "too much: Part above 536870912", "".join(lines) + lines[0])]
    return Story("nearly the most bytes", {"t.sql": table.encode()}, commands(lines, shape, each) + more)


def trial_text(number, rows):
    """What a trial prints (docs/CLI.md, "trial")."""
    made = sorted((x % 100, x // 100 % 1000) for x in ((number + 2654435761 * i) % 2**32 for i in range(rows)))
    values = [v for _, v in made]
    lines = [f"rows {rows}", f"{rows}\t{sum(values)}\t{min(values)}\t{max(values)}"]
    for key in range(3):
        group = [v for k, v in made if k == key]
        lines.append(f"{key}\t{len(group)}\t{sum(group)}")
    lines += [f"{k}\t{v}" for k, v in made if v >= 900][:2]
    return "".join(line + "\n" for line in lines)


def largest_trial():
    """A trial of the most rows."""
    return Story("the largest trial", {}, [Step(["trial", "5", "1048576", "4"], stdout=trial_text(5, 1_048_576))])


def stories():
    yield many_rows()
    yield many_bytes()
    yield largest_trial()
