"""Lines: read and printed again, refused with the first line and why, put in key order, merged."""

from calls import Step, Story, refused, u32

# The types of two columns, lines, and the same rows printed.
LINES = [
    (["UInt8", "Int64"], "007\t-0\n", "7\t0\n"),
    (["UInt8", "Int64"], "255\t-9223372036854775808\n", "255\t-9223372036854775808\n"),
    (["String", "FixedString(3)"], "a\\'\\\\\\0\\b\\f\\r\\n\\t\tab\n", "a\\'\\\\\\0\\b\\f\\r\\n\\t\tab\\0\n"),
    (["String", "FixedString(3)"], "\x08\x0c\r\x00'\"\tNUL\n", "\\b\\f\\r\\0\\'\"\tNUL\n"),
    (["String", "FixedString(3)"], "\t\n[ ]\tNUL\n", "\t\\0\\0\\0\n[ ]\tNUL\n"),
    (["Nullable(Date)", "Nullable(String)"], "1970-01-01\t\\N\n\\N\tNULL\n", "1970-01-01\t\\N\n\\N\tNULL\n"),
    (
        ["Nullable(Date)", "Nullable(String)"],
        "2149-06-06\t\n2000-02-29\t\\\\N\n2024-02-29\tN\n2100-03-01\tNULL\n",
        "2149-06-06\t\n2000-02-29\t\\\\N\n2024-02-29\tN\n2100-03-01\tNULL\n",
    ),
    (["Array(UInt8)", "Array(Nullable(String))"], "[   ]\t[NULL , NULL]\n", "[]\t[NULL,NULL]\n"),
    (["Array(UInt8)", "Array(Nullable(String))"], "[]\t['a\\'b',NULL]\n", "[]\t['a\\'b',NULL]\n"),
    (["Array(UInt8)", "Array(Nullable(String))"], "[ 1 , 02 ]\t[ '', '],[' ]\n", "[1,2]\t['','],[']\n"),
    (
        ["Array(Array(FixedString(2)))", "Array(Date)"],
        "[[],['a','\\'b']]\t['2024-02-29']\n",
        "[[],['a\\0','\\'b']]\t['2024-02-29']\n",
    ),
    (
        ["UInt128", "Int128"],
        f"{2**127 - 1}\t{-(2**127)}\n{2**127}\t{2**127 - 1}\n{2**128 - 1}\t-1\n18446744073709551616\t{-(2**64)}\n",
        f"{2**127 - 1}\t{-(2**127)}\n{2**127}\t{2**127 - 1}\n{2**128 - 1}\t-1\n18446744073709551616\t{-(2**64)}\n",
    ),
    (["UInt128", "Int128"], f"{'0' * 60}{2**128 - 1}\t-{'0' * 60}7\n-0\t-{'0' * 60}\n", f"{2**128 - 1}\t-7\n0\t0\n"),
    (
        ["DateTime('UTC')", "Nullable(DateTime('UTC'))"],
        "1970-01-01 00:00:00\t\\N\n2106-02-07 06:28:15\t2024-02-29 23:59:59\n",
        "1970-01-01 00:00:00\t\\N\n2106-02-07 06:28:15\t2024-02-29 23:59:59\n",
    ),
    (
        ["Array(Nullable(UInt128))", "Array(DateTime('UTC'))"],
        f"[ NULL , {2**128 - 1},0]\t[ '2024-02-29 23:59:59' ,'1970-01-01 00:00:00']\n[]\t[ ]\n",
        f"[NULL,{2**128 - 1},0]\t['2024-02-29 23:59:59','1970-01-01 00:00:00']\n[]\t[]\n",
    ),
    (
        ["Nullable(Int128)", "Array(Nullable(DateTime('UTC')))"],
        f"\\N\t[NULL,'2106-02-07 06:28:15']\n{-(2**127)}\t[NULL]\n",
        f"\\N\t[NULL,'2106-02-07 06:28:15']\n{-(2**127)}\t[NULL]\n",
    ),
]

PLAIN = ["UInt32", "String"]
OTHERS = ["Date", "FixedString(2)"]
FLAT = ["Array(UInt8)", "Array(String)"]
DEEP = ["Array(Array(UInt8))", "Array(Date)"]
WIDE = ["UInt128", "Int128"]
MOMENTS = ["DateTime('UTC')", "Array(DateTime('UTC'))"]

# The types of columns, lines, the first bad one and what is wrong with it first.
REFUSED = [
    (PLAIN, "1\ta", 1, "NoLineEnd"),
    (PLAIN, "1\ta\nx", 2, "NoLineEnd"),
    (PLAIN, "x\ta\tb", 1, "NoLineEnd"),
    (PLAIN, "1\ta\nx\ta\n1", 2, "Number"),
    (PLAIN, "1\n", 1, "Columns"),
    (PLAIN, "\n", 1, "Columns"),
    (PLAIN, "x\n", 1, "Columns"),
    (PLAIN, "x\ta\tb\n", 1, "Columns"),
    (PLAIN, "\\N\ta\n", 1, "Null"),
    (PLAIN, "x\ta\n", 1, "Number"),
    (PLAIN, "\t\\q\n", 1, "Number"),
    (PLAIN, "9999999999999999999x\ta\n", 1, "Number"),
    (PLAIN, "99999999999999999999x\ta\n", 1, "Number"),
    (PLAIN, "-99999999999999999999\t\\q\n", 1, "Range"),
    (PLAIN, "+1\t\\q\n", 1, "Number"),
    (PLAIN, "-\ta\n", 1, "Number"),
    (PLAIN, "4294967296\ta\n", 1, "Range"),
    (PLAIN, "99999999999999999999\ta\n", 1, "Range"),
    (PLAIN, "-1\ta\n", 1, "Range"),
    (PLAIN, "1\ta\\q\n", 1, "Escape"),
    (PLAIN, "1\ta\\\n", 1, "Escape"),
    (PLAIN, "1\ta\\N\n", 1, "Escape"),
    (PLAIN, "1\ta\n2\ta\\\n", 2, "Escape"),
    (PLAIN, "1\t\\N\n", 1, "Null"),
    (OTHERS, "2024-02-30\ta\n", 1, "Date"),
    (OTHERS, "1900-02-29\ta\n", 1, "Date"),
    (OTHERS, "2100-02-29\ta\n", 1, "Date"),
    (OTHERS, "2023-02-29\tabc\n", 1, "Date"),
    (OTHERS, "2024-04-31\t\\q\n", 1, "Date"),
    (OTHERS, "2024-00-10\ta\n", 1, "Date"),
    (OTHERS, "2024-01-00\ta\n", 1, "Date"),
    (OTHERS, "2149-06-07\ta\n", 1, "Date"),
    (OTHERS, "1969-12-31\tabc\n", 1, "Date"),
    (OTHERS, "2024-1-01\ta\n", 1, "Date"),
    (OTHERS, "2024-01-01\tabc\n", 1, "TooLong"),
    (OTHERS, "2024-01-01\tabc\\q\n", 1, "Escape"),
    (FLAT, "1\t[]\n", 1, "List"),
    (FLAT, "\\N\t[]\n", 1, "List"),
    (FLAT, " []\t[]\n", 1, "List"),
    (FLAT, "[1]]\t[]\n", 1, "List"),
    (FLAT, "[1,]\t[]\n", 1, "Number"),
    (FLAT, "[[1]]\t[]\n", 1, "Number"),
    (FLAT, "['1']\t[]\n", 1, "Number"),
    (FLAT, "[1'2]\t[]\n", 1, "List"),
    (FLAT, "[NULL,300]\t[]\n", 1, "Null"),
    (FLAT, "[300,NULL]\t['\\q']\n", 1, "Range"),
    (FLAT, "[x,300]\t[b]\n", 1, "Number"),
    (FLAT, "[x,300\t[b]\n", 1, "List"),
    (FLAT, "[]\t[NULL,'\\q']\n", 1, "Null"),
    (FLAT, "[]\t['\\q',b]\n", 1, "List"),
    (FLAT, "[]\t['a','\\q']\n", 1, "Escape"),
    (FLAT, "[]\t['a\\']\n", 1, "List"),
    (FLAT, "[]\t['a''b']\n", 1, "List"),
    (DEEP, "[[x],5]\t[]\n", 1, "Number"),
    (DEEP, "[5,[x]]\t[]\n", 1, "List"),
    (DEEP, "[NULL]\t[]\n", 1, "Null"),
    (DEEP, "[]\t['2024-01-0\\q']\n", 1, "Date"),
    (DEEP, "[]\t[2024-01-01]\n", 1, "List"),
    (WIDE, f"{2**128}\t0\n", 1, "Range"),
    (WIDE, f"-1\tx\n", 1, "Range"),
    (WIDE, f"0\t{2**127}\n", 1, "Range"),
    (WIDE, f"0\t{-(2**127) - 1}\n", 1, "Range"),
    (WIDE, f"{'9' * 60}\t{'9' * 60}\n", 1, "Range"),
    (WIDE, f"0\t{'9' * 60}\n", 1, "Range"),
    (WIDE, f"0\t-{2**128}\n", 1, "Range"),
    (WIDE, f"{'9' * 60}x\t0\n", 1, "Number"),
    (WIDE, f"{2**127}x\t0\n", 1, "Number"),
    (WIDE, "+1\t0\n", 1, "Number"),
    (WIDE, "\\N\t0\n", 1, "Null"),
    (["UInt64", "Int64"], "18446744073709551616\t0\n", 1, "Range"),
    (["UInt64", "Int64"], f"0\t{2**127}\n", 1, "Range"),
    (["Array(UInt128)", "Array(Int128)"], f"[{2**128}]\t[]\n", 1, "Range"),
    (["Array(UInt128)", "Array(Int128)"], f"[]\t['{2**64}']\n", 1, "Number"),
    (MOMENTS, "2106-02-07 06:28:16\t[]\n", 1, "Date"),
    (MOMENTS, "2106-02-08 00:00:00\t[]\n", 1, "Date"),
    (MOMENTS, "2149-06-06 00:00:00\t[]\n", 1, "Date"),
    (MOMENTS, "2149-06-07 00:00:00\t[]\n", 1, "Date"),
    (MOMENTS, "1969-12-31 23:59:59\t[]\n", 1, "Date"),
    (MOMENTS, "2024-02-30 00:00:00\t[]\n", 1, "Date"),
    (MOMENTS, "2023-02-29 00:00:00\t[]\n", 1, "Date"),
    (MOMENTS, "2016-12-31 23:59:60\t[]\n", 1, "Date"),
    (MOMENTS, "2024-02-29 24:00:00\t[]\n", 1, "Date"),
    (MOMENTS, "2024-02-29 23:60:00\t[]\n", 1, "Date"),
    (MOMENTS, "2024-02-29T00:00:00\t[]\n", 1, "Date"),
    (MOMENTS, "2024-02-29 0:00:00\t[]\n", 1, "Date"),
    (MOMENTS, "2024-02-29 00:00\t[]\n", 1, "Date"),
    (MOMENTS, "2024-02-29 00:00:00 \t[]\n", 1, "Date"),
    (MOMENTS, "2024-02-29 00:00:00.0\t[]\n", 1, "Date"),
    (MOMENTS, "2024-02-29\t[]\n", 1, "Date"),
    (MOMENTS, "2024-02-2\t[]\n", 1, "Date"),
    (MOMENTS, "\t[]\n", 1, "Date"),
    (MOMENTS, "0\t[]\n", 1, "Date"),
    (MOMENTS, "\\N\t[]\n", 1, "Null"),
    (MOMENTS, "2024-02-29 00:00:00\t[2024-02-29 00:00:00]\n", 1, "List"),
    (MOMENTS, "2024-02-29 00:00:00\t['2024-02-29 00:00:60']\n", 1, "Date"),
    (MOMENTS, "2024-02-29 00:00:00\t[NULL]\n", 1, "Null"),
    (["Date", "DateTime('UTC')"], "2024-02-29 00:00:00\t2024-02-29 00:00:00\n", 1, "Date"),
]

# The bytes that are written with a backslash, and the letters after it.
ESCAPES = {0: "0", 8: "b", 9: "t", 10: "n", 12: "f", 13: "r", 39: "'", 92: "\\"}

# The types of elements, and an element of each.
ELEMENTS = [
    ("UInt8", "255"),
    ("UInt16", "65535"),
    ("UInt32", "4294967295"),
    ("UInt64", "18446744073709551615"),
    ("UInt128", "340282366920938463463374607431768211455"),
    ("Int8", "-128"),
    ("Int16", "-32768"),
    ("Int32", "-2147483648"),
    ("Int64", "-9223372036854775808"),
    ("Int128", "-170141183460469231731687303715884105728"),
    ("FixedString(2)", "'a,'"),
    ("String", "'[\\'\\\\,\\n'"),
    ("Date", "'2024-02-29'"),
    ("DateTime('UTC')", "'2024-02-29 23:59:59'"),
    ("Nullable(UInt64)", "NULL"),
    ("Nullable(UInt128)", "170141183460469231731687303715884105728"),
    ("Nullable(Int8)", "127"),
    ("Nullable(String)", "'NULL'"),
    ("Nullable(FixedString(1))", "NULL"),
    ("Nullable(Date)", "NULL"),
    ("Nullable(DateTime('UTC'))", "NULL"),
]


# Dates, in days since 1970-01-01, and their months as a partition has them.
DAYS = [
    ("1970-01-01", 0, 197001),
    ("1970-01-31", 30, 197001),
    ("1970-02-01", 31, 197002),
    ("1970-12-31", 364, 197012),
    ("1972-02-29", 789, 197202),
    ("2000-02-29", 11016, 200002),
    ("2000-03-01", 11017, 200003),
    ("2024-01-31", 19753, 202401),
    ("2024-02-01", 19754, 202402),
    ("2100-02-28", 47540, 210002),
    ("2100-03-01", 47541, 210003),
    ("2149-06-06", 65535, 214906),
]

# Dates and times, in seconds since 1970-01-01 00:00:00.
SECONDS = [
    ("1970-01-01 00:00:00", 0),
    ("1970-01-01 23:59:59", 86399),
    ("1970-01-02 00:00:00", 86400),
    ("1972-06-30 23:59:59", 78796799),
    ("2000-02-29 12:34:56", 951827696),
    ("2016-12-31 23:59:59", 1483228799),
    ("2017-01-01 00:00:00", 1483228800),
    ("2038-01-19 03:14:07", 2147483647),
    ("2038-01-19 03:14:08", 2147483648),
    ("2100-03-01 00:00:00", 4107542400),
    ("2106-02-07 00:00:00", 4294944000),
    ("2106-02-07 06:28:15", 4294967295),
]

# The columns of a sort key and of a table, its lines, and the places of the lines in key order.
SORTED = [
    ("k", "k UInt64", ["18446744073709551615", "5", "0", "18446744073709551614", "5", "9223372036854775808"], [2, 1, 4, 5, 3, 0]),
    ("k", "k Int64", ["0", "-1", "9223372036854775807", "-9223372036854775808", "1", "-1"], [3, 1, 5, 0, 4, 2]),
    ("k", "k UInt128", [str(n) for n in (2**128 - 1, 5, 0, 2**127, 2**127 - 1, 5, 2**64)], [2, 1, 5, 6, 4, 3, 0]),
    ("k", "k Int128", [str(n) for n in (0, -1, 2**127 - 1, -(2**127), 1, -1, -(2**64))], [3, 6, 1, 5, 0, 4, 2]),
    (
        "z, k",
        "k UInt128, z DateTime('UTC')",
        [
            f"{2**128 - 1}\t2024-02-29 23:59:59",
            f"{2**127}\t2024-02-29 23:59:59",
            "7\t2106-02-07 06:28:15",
            "7\t1970-01-01 00:00:00",
            f"{2**127 - 1}\t2024-02-29 23:59:59",
        ],
        [3, 4, 1, 0, 2],
    ),
    ("d", "d Date", ["2024-02-29", "1970-01-01", "2149-06-06", "2024-02-28"], [1, 3, 0, 2]),
    (
        "s",
        "s String",
        ["abcdefghz", "abcdefgh", "abcdefgha", "", "abcdefg", "abcdefg\\0", "b", "abcdefgha"],
        [3, 4, 5, 1, 2, 7, 0, 6],
    ),
    ("s", "s FixedString(2)", ["b\\0", "a\\0", "ab", "b\\0"], [1, 2, 0, 3]),
    ("b, a", "a UInt8, b String", ["2\tx", "1\ty", "1\tx", "2\tw", "2\tx"], [3, 2, 0, 4, 1]),
    ("a, b", "a UInt8, b Int16", ["1\t5", "0\t7", "1\t-5", "0\t7", "1\t5"], [1, 3, 2, 0, 4]),
    (
        "a, b, c",
        "a Date, b UInt64, c String",
        [
            "2024-01-02\t1\tb",
            "2024-01-01\t18446744073709551615\ta",
            "2024-01-02\t1\ta",
            "2024-01-01\t18446744073709551614\tz",
            "2024-01-01\t18446744073709551615\t",
        ],
        [3, 4, 1, 2, 0],
    ),
    ("k", "k UInt8", ["1", "1", "2"], [0, 1, 2]),
]

# The lines of each input of a merge, and the merged lines: of equal keys those of the earlier input first.
MERGED = [
    (["-1\t0\n3\t1\n3\t2\n", "9\t9\n"], "-1\t0\n3\t1\n3\t2\n9\t9\n"),
    (["-1\t0\n3\t1\n3\t2\n", "-2\t3\n3\t4\n", "3\t5\n4\t6\n"], "-2\t3\n-1\t0\n3\t1\n3\t2\n3\t4\n3\t5\n4\t6\n"),
    (["1\t0\n2\t1\n"] * 3, "1\t0\n" * 3 + "2\t1\n" * 3),
]

# A type, and its longest field: a text, an array.
LONGEST = [("String", "a" * 16777216, "b"), ("Array(UInt8)", f"[{'7,' * 1048575}7", ",7]")]

WRITE = ["write", "t.sql", "p", "1"]
ROWS = ["rows", "t.sql", "p"]


def table_of(types, rest="ORDER BY key"):
    """A table of a key and columns of these types."""
    columns = "".join(f", c{place} {name}" for place, name in enumerate(types))
    return {"t.sql": f"CREATE TABLE t (key UInt8{columns}) ENGINE = MergeTree {rest}".encode()}


def keyed(text):
    """The text with a key before each line."""
    parts = text.split("\n")
    return "\n".join("0\t" + line if line or at < len(parts) - 1 else line for at, line in enumerate(parts))


def printed(types, text, wanted):
    """Lines that are written, and printed again."""
    return Story(f"{types}", table_of(types), [Step(WRITE, keyed(text)), Step(ROWS, stdout=keyed(wanted))])


def escaped(byte):
    return "\\" + ESCAPES[byte] if byte in ESCAPES else chr(byte)


def sorted_lines(key, columns, lines, order):
    files = {"t.sql": f"CREATE TABLE t ({columns}, n UInt8) ENGINE = MergeTree ORDER BY ({key})".encode()}
    text = [f"{line}\t{place}\n" for place, line in enumerate(lines)]
    return Story(columns, files, [Step(WRITE, "".join(text)), Step(ROWS, stdout="".join(text[place] for place in order))])


def merged_lines(inputs, wanted):
    files = {"t.sql": b"CREATE TABLE t (k Int32, n UInt8) ENGINE = MergeTree ORDER BY k"}
    names = [f"p{place}" for place in range(len(inputs))]
    steps = [Step(["write", "t.sql", name, "1"], text) for name, text in zip(names, inputs)]
    steps += [Step(["merge", "t.sql", "1", "all", *names]), Step(["rows", "t.sql", "all"], stdout=wanted)]
    return Story("merge", files, steps)


def stories():
    for types, text, wanted in LINES:
        yield printed(types, text, wanted)
    for types, text, line, why in REFUSED:
        yield Story(f"{types}", table_of(types), [refused(WRITE, f"line {line}: {why}", keyed(text))])
    text = "".join(f"{escaped(byte)}\t['{escaped(byte)}','a{escaped(byte)}']\n" for byte in range(256))
    yield printed(["String", "Array(String)"], text, text)
    for name, element in ELEMENTS:
        line = f"[[[{element},{element}],[]],[],[[{element}]]]\n"
        yield printed([f"Array(Array(Array({name})))"], line, line)
    for name, field, more in LONGEST:
        whole = field if name == "String" else field + "]"
        yield printed([name], whole + "\n", whole + "\n")
        yield Story(name, table_of([name]), [refused(WRITE, "line 1: TooLong", keyed(field + more + "\n"))])
    for date, day, month in DAYS:
        files = {"p/minmax_c0.idx": day.to_bytes(2, "little") * 2, "p/partition.dat": u32(month)}
        steps = [Step(WRITE, f"0\t{date}\n", files=files), Step(ROWS, stdout=f"0\t{date}\n")]
        yield Story(date, table_of(["Date"], "PARTITION BY toYYYYMM(c0) ORDER BY key"), steps)
    for moment, second in SECONDS:
        files = {"p/minmax_c0.idx": u32(second) * 2, "p/partition.dat": u32(second)}
        steps = [Step(WRITE, f"0\t{moment}\n", files=files), Step(ROWS, stdout=f"0\t{moment}\n")]
        yield Story(moment, table_of(["DateTime('UTC')"], "PARTITION BY c0 ORDER BY key"), steps)
    for it in SORTED:
        yield sorted_lines(*it)
    for it in MERGED:
        yield merged_lines(*it)
