"""Queries: what is wrong with a text first, and the answers over the rows of a part."""

from calls import Step, Story, refused

# A table with a column of each kind.
KINDS = (
    "CREATE TABLE t (k UInt32, s String, n Nullable(Int8), f FixedString(4), d Date, a "
    "Array(Nullable(String)), b Array(Array(UInt8)), nf Nullable(FixedString(2)), ad Array(Date), `order` "
    "UInt64, w UInt128, i Nullable(Int128), e DateTime('UTC'), ae Array(DateTime('UTC'))) ENGINE = MergeTree ORDER BY k"
)

# Queries of it.
GOOD = [
    "SELECT k FROM part ORDER BY ALL",
    "select k , s from db . part order by all ;",
    "SELECT k FROM `from` ORDER BY ALL LIMIT 0",
    "SELECT k FROM t ORDER BY ALL LIMIT 018446744073709551615",
    "SELECT * FROM t ORDER BY ALL",
    "SELECT count() FROM t ORDER BY ALL",
    "SELECT COUNT( ), Sum(k), min(d), MAX(`order`), count() FROM t ORDER BY ALL",
    "SELECT k, k, count() FROM t GROUP BY s, k, k ORDER BY ALL",
    "SELECT s FROM t Group By s Order By All",
    "SELECT k FROM t WHERE k = 5 ORDER BY ALL",
    "SELECT k FROM t WHERE k != 5 ORDER BY ALL",
    "SELECT k FROM t WHERE k<>5 ORDER BY ALL",
    "SELECT k FROM t WHERE k<5ORDER BY ALL",
    "SELECT k FROM t WHERE k <= 5 ORDER BY ALL",
    "SELECT k FROM t WHERE k > 5 ORDER BY ALL",
    "SELECT k FROM t WHERE k >= 5 ORDER BY ALL",
    "SELECT k FROM t WHERE k = 1 OR k = 2 AND k = 3 ORDER BY ALL",
    "SELECT k FROM t WHERE k = 1 AND k = 2 OR k = 3 ORDER BY ALL",
    "SELECT k FROM t WHERE (k = 1 OR k = 2) AND k = 3 ORDER BY ALL",
    "SELECT k FROM t WHERE k = 1 or k = 2 oR k = 3 ORDER BY ALL",
    "SELECT k FROM t WHERE k = 1 and k = 2 aNd k = 3 ORDER BY ALL",
    "SELECT k FROM t WHERE NOT k = 1 AND not not (k = 2) ORDER BY ALL",
    "SELECT k FROM t WHERE k = - 07 ORDER BY ALL",
    "SELECT k FROM t WHERE k = 170141183460469231731687303715884105727 ORDER BY ALL",
    "SELECT k FROM t WHERE n = -170141183460469231731687303715884105728 ORDER BY ALL",
    "SELECT k FROM t WHERE k = 340282366920938463463374607431768211455 ORDER BY ALL",
    "SELECT k FROM t WHERE w = 340282366920938463463374607431768211455 ORDER BY ALL",
    "SELECT k FROM t WHERE i IN (170141183460469231731687303715884105728, -1) ORDER BY ALL",
    "SELECT k FROM t WHERE e = '2106-02-07 06:28:15' ORDER BY ALL",
    "SELECT k FROM t WHERE e IN ('1970-01-01 00:00:00', '2024-02-29 23:59:59') ORDER BY ALL",
    "SELECT k FROM t WHERE has(ae, '1970-01-01 00:00:00') ORDER BY ALL",
    "SELECT w, e, count() FROM t GROUP BY w, e ORDER BY ALL",
    "SELECT k FROM t WHERE s = 'a\\'\\n' ORDER BY ALL",
    "SELECT k FROM t WHERE f = 'abcd' ORDER BY ALL",
    "SELECT k FROM t WHERE f = 'a' ORDER BY ALL",
    "SELECT k FROM t WHERE nf = '' ORDER BY ALL",
    "SELECT k FROM t WHERE d = '1970-01-02' ORDER BY ALL",
    "SELECT k FROM t WHERE d = '2149-06-06' ORDER BY ALL",
    "SELECT k FROM t WHERE k in (1, -2,3) ORDER BY ALL",
    "SELECT k FROM t WHERE d IN ('1970-01-01') ORDER BY ALL",
    "SELECT k FROM t WHERE n IS NULL ORDER BY ALL",
    "SELECT k FROM t WHERE b Is Not Null ORDER BY ALL",
    "SELECT k FROM t WHERE startsWith(f, 'ab') ORDER BY ALL",
    "SELECT k FROM t WHERE startsWith ( nf , '' ) ORDER BY ALL",
    "SELECT k FROM t WHERE has(a, 'x') ORDER BY ALL",
    "SELECT k FROM t WHERE has(ad, '1970-01-03') ORDER BY ALL",
    "SELECT `order` FROM t WHERE `order` = 1 GROUP BY `order` ORDER BY ALL",
]

# Texts and the first rule that they break.
REFUSED = [
    # The grammar.
    ("", "Syntax"),
    ("SELECT k FROM part", "Syntax"),
    ("SELECT FROM part ORDER BY ALL", "Syntax"),
    ("SELECT k, FROM part ORDER BY ALL", "Syntax"),
    ("SELECT *, k FROM part ORDER BY ALL", "Syntax"),
    ("SELECT k part ORDER BY ALL", "Syntax"),
    ("SELECT k FROM a.b.c ORDER BY ALL", "Syntax"),
    ("SELECT k FROM group ORDER BY ALL", "Syntax"),
    ("SELECT order FROM part ORDER BY ALL", "Syntax"),
    ("SELECT null FROM part ORDER BY ALL", "Syntax"),
    ("SELECT k FROM part ORDER BY k", "Syntax"),
    ("SELECT k FROM part ORDER BY ALL LIMIT", "Syntax"),
    ("SELECT k FROM part ORDER BY ALL LIMIT -1", "Syntax"),
    ("SELECT k FROM part ORDER BY ALL LIMIT 18446744073709551616", "Syntax"),
    ("SELECT k FROM part ORDER BY ALL; ;", "Syntax"),
    ("SELECT k FROM part ORDER BY ALL k", "Syntax"),
    ("SELECT k FROM part GROUP BY k WHERE k = 1 ORDER BY ALL", "Syntax"),
    ("SELECT k FROM part GROUP BY (k) ORDER BY ALL", "Syntax"),
    ("SELECT count(k) FROM part ORDER BY ALL", "Syntax"),
    ("SELECT avg(k) FROM part ORDER BY ALL", "Syntax"),
    ("SELECT `sum`(k) FROM part ORDER BY ALL", "Syntax"),
    ("SELECT k FROM part WHERE ORDER BY ALL", "Syntax"),
    ("SELECT k FROM part WHERE k ORDER BY ALL", "Syntax"),
    ("SELECT k FROM part WHERE 5 = k ORDER BY ALL", "Syntax"),
    ("SELECT k FROM part WHERE k = NULL ORDER BY ALL", "Syntax"),
    ("SELECT k FROM part WHERE k = +1 ORDER BY ALL", "Syntax"),
    ("SELECT k FROM part WHERE k = -'a' ORDER BY ALL", "Syntax"),
    ("SELECT k FROM part WHERE k == 1 ORDER BY ALL", "Syntax"),
    ("SELECT k FROM part WHERE k IN () ORDER BY ALL", "Syntax"),
    ("SELECT k FROM part WHERE k IN 1 ORDER BY ALL", "Syntax"),
    ("SELECT k FROM part WHERE k NOT IN (1) ORDER BY ALL", "Syntax"),
    ("SELECT k FROM part WHERE n IS 1 ORDER BY ALL", "Syntax"),
    ("SELECT k FROM part WHERE (k = 1 ORDER BY ALL", "Syntax"),
    ("SELECT k FROM part WHERE (k) = 1 ORDER BY ALL", "Syntax"),
    ("SELECT k FROM part WHERE k = 1 AND OR k = 2 ORDER BY ALL", "Syntax"),
    ("SELECT k FROM part WHERE startswith(s, 'a') ORDER BY ALL", "Syntax"),
    ("SELECT k FROM part WHERE startsWith(s, 5) ORDER BY ALL", "Syntax"),
    ("SELECT k FROM part WHERE HAS(a, 'x') ORDER BY ALL", "Syntax"),
    ("SELECT k FROM part WHERE s = 'a\\q' ORDER BY ALL", "Syntax"),
    # Columns.
    ("SELECT z FROM part ORDER BY ALL", "NoSuchColumn"),
    ("SELECT K FROM part ORDER BY ALL", "NoSuchColumn"),
    ("SELECT sum(z) FROM part ORDER BY ALL", "NoSuchColumn"),
    ("SELECT k FROM part WHERE NOT (k = 1 OR z = 1) ORDER BY ALL", "NoSuchColumn"),
    ("SELECT count() FROM part GROUP BY k, z ORDER BY ALL", "NoSuchColumn"),
    # Groups.
    ("SELECT k, count() FROM part ORDER BY ALL", "NotGrouped"),
    ("SELECT k FROM part GROUP BY s ORDER BY ALL", "NotGrouped"),
    ("SELECT * FROM part GROUP BY k ORDER BY ALL", "NotGrouped"),
    # Literals.
    ("SELECT k FROM part WHERE k = 'x' ORDER BY ALL", "BadLiteral"),
    ("SELECT k FROM part WHERE s = 1 ORDER BY ALL", "BadLiteral"),
    ("SELECT k FROM part WHERE n = 'x' ORDER BY ALL", "BadLiteral"),
    ("SELECT k FROM part WHERE d = 1 ORDER BY ALL", "BadLiteral"),
    ("SELECT k FROM part WHERE d = '2149-06-07' ORDER BY ALL", "BadLiteral"),
    ("SELECT k FROM part WHERE d = '2023-02-29' ORDER BY ALL", "BadLiteral"),
    ("SELECT k FROM part WHERE f = 'abcde' ORDER BY ALL", "BadLiteral"),
    ("SELECT k FROM part WHERE startsWith(f, 'abcde') ORDER BY ALL", "BadLiteral"),
    ("SELECT k FROM part WHERE startsWith(k, '1') ORDER BY ALL", "BadLiteral"),
    ("SELECT k FROM part WHERE startsWith(a, 'x') ORDER BY ALL", "BadLiteral"),
    ("SELECT k FROM part WHERE a = 'x' ORDER BY ALL", "BadLiteral"),
    ("SELECT k FROM part WHERE a IN ('x') ORDER BY ALL", "BadLiteral"),
    ("SELECT k FROM part WHERE k IN (1, 'x') ORDER BY ALL", "BadLiteral"),
    ("SELECT k FROM part WHERE has(s, 'x') ORDER BY ALL", "BadLiteral"),
    ("SELECT k FROM part WHERE has(b, 1) ORDER BY ALL", "BadLiteral"),
    ("SELECT k FROM part WHERE k = 340282366920938463463374607431768211456 ORDER BY ALL", "BadLiteral"),
    ("SELECT k FROM part WHERE w = 340282366920938463463374607431768211456 ORDER BY ALL", "BadLiteral"),
    ("SELECT k FROM part WHERE w = 999999999999999999999999999999999999999999999999 ORDER BY ALL", "BadLiteral"),
    ("SELECT k FROM part WHERE k = -170141183460469231731687303715884105729 ORDER BY ALL", "BadLiteral"),
    ("SELECT k FROM part WHERE i = -170141183460469231731687303715884105729 ORDER BY ALL", "BadLiteral"),
    ("SELECT k FROM part WHERE e = '2106-02-07 06:28:16' ORDER BY ALL", "BadLiteral"),
    ("SELECT k FROM part WHERE e = '2024-02-30 00:00:00' ORDER BY ALL", "BadLiteral"),
    ("SELECT k FROM part WHERE e = '2024-02-29 24:00:00' ORDER BY ALL", "BadLiteral"),
    ("SELECT k FROM part WHERE e = '2016-12-31 23:59:60' ORDER BY ALL", "BadLiteral"),
    ("SELECT k FROM part WHERE e = '2024-02-29' ORDER BY ALL", "BadLiteral"),
    ("SELECT k FROM part WHERE e = 0 ORDER BY ALL", "BadLiteral"),
    ("SELECT k FROM part WHERE d = '2024-02-29 00:00:00' ORDER BY ALL", "BadLiteral"),
    ("SELECT k FROM part WHERE startsWith(e, '2024') ORDER BY ALL", "BadLiteral"),
    ("SELECT k FROM part WHERE has(ae, '2024-02-29') ORDER BY ALL", "BadLiteral"),
    # Aggregates.
    ("SELECT sum(w) FROM part ORDER BY ALL", "BadAggregate"),
    ("SELECT min(w) FROM part ORDER BY ALL", "BadAggregate"),
    ("SELECT max(e) FROM part ORDER BY ALL", "BadAggregate"),
    ("SELECT sum(s) FROM part ORDER BY ALL", "BadAggregate"),
    ("SELECT sum(d) FROM part ORDER BY ALL", "BadAggregate"),
    ("SELECT min(n) FROM part ORDER BY ALL", "BadAggregate"),
    # An earlier rule comes first.
    ("SELECT k, sum(s) FROM part WHERE k = 'x' ORDER BY ALL", "NotGrouped"),
]

# What is put before and behind a comparison, and how many levels that adds, of which there are 64 at most.
LEVELS = [("(", ")", 1), ("NOT ", "", 1), ("NOT (", ")", 2), ("k = 1 AND (", " OR k = 2)", 1)]

PLAIN = (
    "CREATE TABLE t (k UInt32, s String) ENGINE = MergeTree ORDER BY k SETTINGS index_granularity = 2, "
    "min_bytes_for_wide_part = 0"
)

NULLS = "CREATE TABLE t (k UInt8, n Nullable(UInt8)) ENGINE = MergeTree ORDER BY k"

OTHERS = (
    "CREATE TABLE t (k UInt8, a Array(Nullable(String)), f FixedString(3), p Nullable(String)) ENGINE = "
    "MergeTree ORDER BY k"
)

SUMS = (
    "CREATE TABLE t (k UInt8, v UInt64, PROJECTION p (SELECT k, sum(v), count() GROUP BY k)) ENGINE = "
    "MergeTree ORDER BY k SETTINGS min_bytes_for_wide_part = 0"
)

SIGNED = "CREATE TABLE t (k UInt8, i Int64, b Int8, d Date, n Nullable(UInt8)) ENGINE = MergeTree ORDER BY k"

ORDERED = "CREATE TABLE t (k UInt8, s String, n Nullable(Int8), a Array(UInt8)) ENGINE = MergeTree ORDER BY k"

EQUAL_KEYS = [
    ("SELECT s FROM part WHERE k = 5 ORDER BY ALL", "b\nc\n"),
    ("SELECT s FROM part WHERE k > 6 ORDER BY ALL", ""),
    ("SELECT s FROM part WHERE k < 5 OR k >= 6 ORDER BY ALL", "a\nd\n"),
    ("SELECT k FROM part WHERE s IN ('c', 'x', 'a') ORDER BY ALL", "4\n5\n"),
    ("SELECT k FROM part WHERE startsWith(s, '') AND k <> 5 ORDER BY ALL", "4\n6\n"),
    ("SELECT k FROM part WHERE k = -1 OR k <= 4294967296 AND s < 'b' ORDER BY ALL", "4\n"),
]

THREE_VALUES = [
    ("SELECT k FROM part WHERE NOT (n = 1) ORDER BY ALL", "3\n"),
    ("SELECT k FROM part WHERE n IN (1, 2) OR n IS NULL ORDER BY ALL", "1\n2\n3\n"),
    ("SELECT k FROM part WHERE NOT n IN (1, 7) ORDER BY ALL", "3\n"),
    ("SELECT k FROM part WHERE n != 1 OR n = 1 ORDER BY ALL", "1\n3\n"),
    ("SELECT k FROM part WHERE n > 1 ORDER BY ALL", "3\n"),
    ("SELECT k FROM part WHERE n IS NOT NULL ORDER BY ALL", "1\n3\n"),
    ("SELECT k FROM part WHERE NOT (n = 1 AND k = 1) ORDER BY ALL", "2\n3\n"),
    ("SELECT k FROM part WHERE NOT (k = 1 AND n = 1) ORDER BY ALL", "2\n3\n"),
    ("SELECT k FROM part WHERE NOT (n = 1 AND k = 2) ORDER BY ALL", "1\n3\n"),
    ("SELECT k FROM part WHERE NOT (n = 2 OR k = 2) ORDER BY ALL", "1\n"),
    ("SELECT k FROM part WHERE NOT (n = 2 OR k = 1) ORDER BY ALL", ""),
    ("SELECT k FROM part WHERE k IS NULL ORDER BY ALL", ""),
]

TEXTS = [
    ("SELECT k FROM part WHERE has(a, 'a\\'b') ORDER BY ALL", "2\n"),
    ("SELECT k FROM part WHERE NOT has(a, 'x') ORDER BY ALL", "1\n2\n"),
    ("SELECT a FROM part WHERE a IS NOT NULL ORDER BY ALL", "[]\n['a\\'b',NULL]\n"),
    ("SELECT f FROM part WHERE f = 'ab' ORDER BY ALL", "ab\\0\n"),
    ("SELECT f FROM part WHERE f IN ('ab', 'abc') ORDER BY ALL", "ab\\0\nabc\n"),
    ("SELECT k FROM part WHERE startsWith(f, 'ab') ORDER BY ALL", "1\n2\n"),
    ("SELECT k FROM part WHERE startsWith(f, 'abc') ORDER BY ALL", "2\n"),
    ("SELECT k FROM part WHERE startsWith(p, 'x') ORDER BY ALL", "2\n"),
    ("SELECT k FROM part WHERE NOT startsWith(p, 'y') ORDER BY ALL", "2\n"),
    ("SELECT * FROM part WHERE p > 'w' ORDER BY ALL", "2\t['a\\'b',NULL]\tabc\txy\n"),
]

THREE_ROWS = [
    ("SELECT count() FROM part ORDER BY ALL", "3\n"),
    ("SELECT count(), sum(k), min(k) FROM part WHERE k > 3 ORDER BY ALL", "0\t0\t0\n"),
    ("SELECT max(k), count(), count() FROM part WHERE k < 3 ORDER BY ALL", "2\t2\t2\n"),
    ("SELECT k, count() FROM part WHERE k > 3 GROUP BY k ORDER BY ALL", ""),
    ("SELECT count() FROM part WHERE k > 3 GROUP BY k ORDER BY ALL", ""),
    ("SELECT s, count() FROM part WHERE k != 2 GROUP BY s ORDER BY ALL LIMIT 1", "a\t1\n"),
    ("SELECT s FROM part GROUP BY s ORDER BY ALL", "a\nb\nc\n"),
    ("SELECT sum(k), s FROM part GROUP BY s, k ORDER BY ALL LIMIT 2", "1\ta\n2\tb\n"),
    ("SELECT count() FROM part GROUP BY k ORDER BY ALL", "1\n1\n1\n"),
]

WRAPPED = [
    ("SELECT k, sum(v) FROM part GROUP BY k ORDER BY ALL", "1\t1\n"),
    ("SELECT k, sum(v) FROM part WHERE v = 2 GROUP BY k ORDER BY ALL", "1\t2\n"),
    ("SELECT max(v), min(v), sum(k) FROM part ORDER BY ALL", "18446744073709551615\t2\t2\n"),
]

SIGNED_QUERIES = [
    ("SELECT sum(i), min(i), max(i) FROM part ORDER BY ALL", "-1\t-9223372036854775808\t-1\n"),
    ("SELECT sum(b), min(b), max(b) FROM part ORDER BY ALL", "-129\t-128\t0\n"),
    ("SELECT min(d), max(d) FROM part ORDER BY ALL", "2024-01-01\t2024-01-31\n"),
    ("SELECT min(d), max(i), sum(b) FROM part WHERE k > 9 ORDER BY ALL", "1970-01-01\t0\t0\n"),
    ("SELECT n, count() FROM part GROUP BY n ORDER BY ALL", "7\t1\n\\N\t2\n"),
    (
        "SELECT d, n, max(k) FROM part GROUP BY n, d ORDER BY ALL",
        "2024-01-01\t7\t2\n2024-01-01\t\\N\t3\n2024-01-31\t\\N\t1\n",
    ),
]

ORDERS = [
    ("SELECT n FROM part ORDER BY ALL", "-5\n5\n\\N\n\\N\n"),
    ("SELECT s FROM part ORDER BY ALL", "a\nab\nb\nb\n"),
    ("SELECT a FROM part ORDER BY ALL", "[]\n[1,9]\n[2]\n[2,1]\n"),
    ("SELECT s, n FROM part ORDER BY ALL", "a\t5\nab\t\\N\nb\t-5\nb\t\\N\n"),
    ("SELECT n, k FROM part ORDER BY ALL LIMIT 3", "-5\t3\n5\t2\n\\N\t1\n"),
    ("SELECT n FROM part ORDER BY ALL LIMIT 1", "-5\n"),
    ("SELECT s FROM part ORDER BY ALL LIMIT 0", ""),
    ("SELECT s, s, k FROM part ORDER BY ALL LIMIT 18446744073709551615", "a\ta\t2\nab\tab\t4\nb\tb\t1\nb\tb\t3\n"),
    ("SELECT s, count() FROM part GROUP BY s ORDER BY ALL LIMIT 2", "a\t1\nab\t1\n"),
]

WIDE = (
    "CREATE TABLE t (k UInt128, i Int128, z DateTime('UTC')) ENGINE = MergeTree ORDER BY k SETTINGS "
    "index_granularity = 1, min_bytes_for_wide_part = 0"
)

WIDE_LINES = (
    f"{2**128 - 1}\t-1\t2106-02-07 06:28:15\n0\t{2**127 - 1}\t1970-01-01 00:00:00\n"
    f"{2**127}\t{-(2**127)}\t2024-02-29 23:59:59\n{2**127 - 1}\t{2**64}\t2024-02-29 23:59:59\n"
)

WIDE_QUERIES = [
    (f"SELECT z FROM part WHERE k > {2**127 - 1} ORDER BY ALL", "2024-02-29 23:59:59\n2106-02-07 06:28:15\n"),
    (f"SELECT z FROM part WHERE k > {2**127} ORDER BY ALL", "2106-02-07 06:28:15\n"),
    (f"SELECT k FROM part WHERE k = {2**128 - 1} ORDER BY ALL", f"{2**128 - 1}\n"),
    (f"SELECT k FROM part WHERE k != {2**128 - 1} ORDER BY ALL", f"0\n{2**127 - 1}\n{2**127}\n"),
    (f"SELECT k FROM part WHERE k <= {2**127 - 1} ORDER BY ALL", f"0\n{2**127 - 1}\n"),
    ("SELECT k FROM part WHERE k >= -5 ORDER BY ALL LIMIT 2", f"0\n{2**127 - 1}\n"),
    (f"SELECT i FROM part WHERE i < {2**127} ORDER BY ALL", f"{-(2**127)}\n-1\n{2**64}\n{2**127 - 1}\n"),
    (f"SELECT i FROM part WHERE i IN ({-(2**127)}, {2**128 - 1}, {2**127 - 1}) ORDER BY ALL", f"{-(2**127)}\n{2**127 - 1}\n"),
    ("SELECT i, k FROM part WHERE i < 0 ORDER BY ALL", f"{-(2**127)}\t{2**127}\n-1\t{2**128 - 1}\n"),
    ("SELECT k FROM part WHERE z >= '2024-02-29 23:59:59' ORDER BY ALL", f"{2**127 - 1}\n{2**127}\n{2**128 - 1}\n"),
    ("SELECT k FROM part WHERE z > '2024-02-29 23:59:59' ORDER BY ALL", f"{2**128 - 1}\n"),
    ("SELECT k FROM part WHERE z IN ('1970-01-01 00:00:00', '2106-02-07 06:28:15') ORDER BY ALL", f"0\n{2**128 - 1}\n"),
    (
        "SELECT z, count() FROM part GROUP BY z ORDER BY ALL",
        "1970-01-01 00:00:00\t1\n2024-02-29 23:59:59\t2\n2106-02-07 06:28:15\t1\n",
    ),
    ("SELECT k, count() FROM part GROUP BY k ORDER BY ALL LIMIT 1", "0\t1\n"),
    ("SELECT k FROM part WHERE k IS NULL OR z IS NULL ORDER BY ALL", ""),
]


# Tables, lines, and the answers of queries over their rows.
ANSWERS = [
    (PLAIN, "4\ta\n5\tb\n5\tc\n6\td\n", EQUAL_KEYS),
    (PLAIN, "1\ta\n2\tb\n3\tc\n", THREE_ROWS),
    (NULLS, "1\t1\n2\t\\N\n3\t2\n", THREE_VALUES),
    (OTHERS, "1\t[]\tab\t\\N\n2\t['a\\'b',NULL]\tabc\txy\n", TEXTS),
    (SUMS, "1\t18446744073709551615\n1\t2\n", WRAPPED),
    (
        SIGNED,
        "1\t-9223372036854775808\t-128\t2024-01-31\t\\N\n2\t-1\t-1\t2024-01-01\t7\n"
        "3\t-9223372036854775808\t0\t2024-01-01\t\\N\n",
        SIGNED_QUERIES,
    ),
    (WIDE, WIDE_LINES, WIDE_QUERIES),
    (ORDERED, "1\tb\t\\N\t[2]\n2\ta\t5\t[]\n3\tb\t-5\t[1,9]\n4\tab\t\\N\t[2,1]\n", ORDERS),
]

# The longest text of a query, in bytes.
LONGEST = 65536


def nested(before, behind, count):
    """A query with these before and behind a comparison in its condition, each so many times."""
    return f"SELECT k FROM t WHERE {before * count}k = 1{behind * count} ORDER BY ALL"


def at_limits():
    """Conditions as deep and texts as long as they may be, and one past."""
    for before, behind, levels in LEVELS:
        for more in (0, 1):
            yield nested(before, behind, 64 // levels + more), "Syntax" if more else None
    for join in (" OR k=1", " AND k=1"):
        text = nested("", join, (LONGEST - 45) // len(join))
        yield text.ljust(LONGEST), None
        yield text.ljust(LONGEST + 1), "TooMany"


def reading(name, texts):
    """Texts and what is wrong with each first, if anything: a call reads the query, and finds no part."""
    notes = [(text, f"bad query: {why}" if why else "none: no part") for text, why in texts]
    steps = [refused(["select", "t.sql", "none", text], note) for text, note in notes]
    return Story(name, {"t.sql": KINDS.encode()}, steps)


def answers(table, lines, queries):
    steps = [Step(["write", "t.sql", "p", "1"], lines)]
    steps += [Step(["select", "t.sql", "p", query], stdout=text) for query, text in queries]
    return Story(table, {"t.sql": table.encode()}, steps)


def groups(count):
    """As many groups as rows, by different arrays of one element."""
    files = {"t.sql": b"CREATE TABLE t (k UInt32, a Array(UInt32)) ENGINE = MergeTree ORDER BY k"}
    lines = "".join(f"{n}\t[{n}]\n" for n in range(count))
    query = "SELECT a, count() FROM part GROUP BY a ORDER BY ALL LIMIT 2"
    steps = [Step(["write", "t.sql", "p", "1"], lines), Step(["select", "t.sql", "p", query], stdout="[0]\t1\n[1]\t1\n")]
    return Story(f"{count} arrays", files, steps)


def stories():
    yield reading("the first broken rule", REFUSED)
    yield reading("good queries", [(text, None) for text in GOOD])
    yield reading("limits", list(at_limits()))
    for table, lines, queries in ANSWERS:
        yield answers(table, lines, queries)
    for count in (10000, 40000):
        yield groups(count)
