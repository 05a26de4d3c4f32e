"""Table texts, and what is wrong with each first: the note of a call that reads the table and finds no part."""

from calls import Story, create, refused

# What stands between a table's parentheses and behind its engine, and the first rule that is broken.
REFUSED = [
    # The grammar.
    ("k UInt8", "", "Syntax"),
    ("INDEX i k TYPE minmax", "ORDER BY k", "Syntax"),
    ("k UInt8", "ORDER BY k, k", "Syntax"),
    ("k UInt8", "ORDER BY k ORDER BY k", "Syntax"),
    ("k UInt8()", "ORDER BY k", "Syntax"),
    ("k a(a(a(a(a(a(a(a(a(1)))))))))", "ORDER BY k", "Syntax"),
    ("k FixedString(18446744073709551616)", "ORDER BY k", "Syntax"),
    # Types.
    ("k Float64", "ORDER BY k", "NotAType"),
    ("k a(a(a(a(a(a(a(a(1))))))))", "ORDER BY k", "NotAType"),
    ("k uint8", "ORDER BY k", "NotAType"),
    ("k UInt8(3)", "ORDER BY k", "NotAType"),
    ("k FixedString", "ORDER BY k", "NotAType"),
    ("k FixedString(0)", "ORDER BY k", "NotAType"),
    ("k FixedString(65536)", "ORDER BY k", "NotAType"),
    ("k FixedString(3, 4)", "ORDER BY k", "NotAType"),
    ("k UInt8, a Nullable(Nullable(UInt8))", "ORDER BY k", "NotAType"),
    ("k UInt8, a Nullable(Array(UInt8))", "ORDER BY k", "NotAType"),
    ("k UInt8, a Array(Array(Array(Array(UInt8))))", "ORDER BY k", "NotAType"),
    ("k UInt8, c AggregateFunction(count)", "ORDER BY k", "NotAType"),
    ("k UInt8, c AggregateFunction(sum, UInt8)", "ORDER BY k", "NotAType"),
    ("k UInt8, c AggregateFunction(sum, UInt128)", "ORDER BY k", "NotAType"),
    ("k CODEC(NONE)", "ORDER BY k", "NotAType"),
    ("k UInt256", "ORDER BY k", "NotAType"),
    ("k UInt128(1)", "ORDER BY k", "NotAType"),
    ("k UInt8('UTC')", "ORDER BY k", "NotAType"),
    ("k Array('UTC')", "ORDER BY k", "NotAType"),
    ("k DateTime", "ORDER BY k", "NotAType"),
    ("k DateTime(UTC)", "ORDER BY k", "NotAType"),
    ("k DateTime('utc')", "ORDER BY k", "NotAType"),
    ("k DateTime(' UTC')", "ORDER BY k", "NotAType"),
    ("k DateTime('Europe/Berlin')", "ORDER BY k", "NotAType"),
    ("k DateTime('UTC', 0)", "ORDER BY k", "NotAType"),
    ("k DateTime(0, 'UTC')", "ORDER BY k", "NotAType"),
    ("k DateTime64(3, 'UTC')", "ORDER BY k", "NotAType"),
    ("k UInt8, a Nullable(Array(DateTime('UTC')))", "ORDER BY k", "NotAType"),
    ("k Float64, k Float64", "ORDER BY z", "NotAType"),
    # Names.
    ("k UInt32, k String", "ORDER BY k", "TwoNames"),
    ("k UInt32, `k` UInt8", "ORDER BY z", "TwoNames"),
    ("k UInt8, INDEX i k TYPE minmax, INDEX i k TYPE set(1)", "ORDER BY k", "TwoNames"),
    ("k UInt8, PROJECTION p (SELECT * ORDER BY k), PROJECTION p (SELECT k ORDER BY k)", "ORDER BY k", "TwoNames"),
    ("skp_idx_i UInt8, INDEX i skp_idx_i TYPE minmax", "ORDER BY skp_idx_i", "TwoNames"),
    # Columns that aren't there.
    ("k UInt8", "ORDER BY z", "NoSuchColumn"),
    ("k UInt8", "ORDER BY K", "NoSuchColumn"),
    ("k UInt8", "ORDER BY k PRIMARY KEY z", "NoSuchColumn"),
    ("k UInt8", "ORDER BY k PARTITION BY z", "NoSuchColumn"),
    ("k UInt8", "ORDER BY k PARTITION BY toYYYYMM(z)", "NoSuchColumn"),
    ("k UInt8, INDEX i z TYPE minmax", "ORDER BY k", "NoSuchColumn"),
    ("k UInt8, PROJECTION p (SELECT z ORDER BY k)", "ORDER BY k", "NoSuchColumn"),
    ("k UInt8, PROJECTION p (SELECT k ORDER BY z)", "ORDER BY k", "NoSuchColumn"),
    ("k UInt8, PROJECTION p (SELECT k, max(z) GROUP BY k)", "ORDER BY k", "NoSuchColumn"),
    ("k UInt8, PROJECTION p (SELECT k, count() GROUP BY z)", "ORDER BY k", "NoSuchColumn"),
    ("k Nullable(UInt8)", "ORDER BY z", "NoSuchColumn"),
    # Keys.
    ("k Nullable(UInt8)", "ORDER BY k", "BadKey"),
    ("k Array(UInt8)", "ORDER BY k", "BadKey"),
    ("k UInt8", "ORDER BY (k, k)", "BadKey"),
    ("k UInt8, v UInt8", "ORDER BY (k, v) PRIMARY KEY v", "BadKey"),
    ("k UInt8, v UInt8", "ORDER BY k PRIMARY KEY (k, v)", "BadKey"),
    ("k UInt8, v UInt8", "ORDER BY (k, v) PRIMARY KEY (k, k)", "BadKey"),
    ("k Nullable(UInt8)", "ORDER BY k PARTITION BY k", "BadKey"),
    # Partition keys.
    ("k UInt8, n Nullable(UInt8)", "ORDER BY k PARTITION BY n", "BadPartition"),
    ("k UInt8", "ORDER BY k PARTITION BY toYYYYMM(k)", "BadPartition"),
    ("k UInt8", "ORDER BY k PARTITION BY (k, k)", "BadPartition"),
    ("d Date", "ORDER BY d PARTITION BY (toYYYYMM(d), d, toYYYYMM(d))", "BadPartition"),
    ("z DateTime('UTC')", "ORDER BY z PARTITION BY toYYYYMM(z)", "BadPartition"),
    # Skip indexes.
    ("k UInt8, n Nullable(UInt8), INDEX i n TYPE minmax", "ORDER BY k", "BadSkip"),
    ("k UInt8, a Array(UInt8), INDEX i a TYPE set(1)", "ORDER BY k", "BadSkip"),
    ("k UInt8, INDEX i k TYPE minmax GRANULARITY 0", "ORDER BY k", "BadSkip"),
    ("k UInt8, INDEX i k TYPE minmax GRANULARITY 1048577", "ORDER BY k", "BadSkip"),
    ("k UInt8, INDEX i k TYPE set(4194305)", "ORDER BY k", "BadSkip"),
    # Projections.
    ("k UInt8, PROJECTION p (SELECT k)", "ORDER BY k", "BadProjection"),
    ("k UInt8, PROJECTION p (SELECT *)", "ORDER BY k", "BadProjection"),
    ("k UInt8, PROJECTION p (SELECT k GROUP BY k)", "ORDER BY k", "BadProjection"),
    ("k UInt8, PROJECTION p (SELECT * GROUP BY k)", "ORDER BY k", "BadProjection"),
    ("k UInt8, PROJECTION p (SELECT k, count() ORDER BY k)", "ORDER BY k", "BadProjection"),
    ("k UInt8, PROJECTION p (SELECT k, count() GROUP BY k ORDER BY k)", "ORDER BY k", "BadProjection"),
    ("k UInt8, v UInt8, PROJECTION p (SELECT k ORDER BY v)", "ORDER BY k", "BadProjection"),
    ("k UInt8, PROJECTION p (SELECT k, k ORDER BY k)", "ORDER BY k", "BadProjection"),
    ("k UInt8, PROJECTION p (SELECT * ORDER BY (k, k))", "ORDER BY k", "BadProjection"),
    ("k UInt8, n Nullable(UInt8), PROJECTION p (SELECT * ORDER BY n)", "ORDER BY k", "BadProjection"),
    ("k UInt8, v UInt8, PROJECTION p (SELECT k, v, count() GROUP BY k)", "ORDER BY k", "BadProjection"),
    ("k UInt8, v UInt8, PROJECTION p (SELECT k, count() GROUP BY k, v)", "ORDER BY k", "BadProjection"),
    ("k UInt8, PROJECTION p (SELECT k, k, count() GROUP BY k)", "ORDER BY k", "BadProjection"),
    ("k UInt8, PROJECTION p (SELECT k, count(), count() GROUP BY k)", "ORDER BY k", "BadProjection"),
    ("k UInt8, PROJECTION p (SELECT k, sum(k), min(k), sum(k) GROUP BY k)", "ORDER BY k", "BadProjection"),
    ("k String, PROJECTION p (SELECT k, min(k) GROUP BY k)", "ORDER BY k", "BadProjection"),
    ("k Date, PROJECTION p (SELECT k, sum(k) GROUP BY k)", "ORDER BY k", "BadProjection"),
    ("k UInt8, v UInt128, PROJECTION p (SELECT k, sum(v) GROUP BY k)", "ORDER BY k", "BadProjection"),
    ("k UInt8, v Int128, PROJECTION p (SELECT k, sum(v) GROUP BY k)", "ORDER BY k", "BadProjection"),
    ("k UInt8, v Int128, PROJECTION p (SELECT k, min(v) GROUP BY k)", "ORDER BY k", "BadProjection"),
    ("k UInt8, v DateTime('UTC'), PROJECTION p (SELECT k, max(v) GROUP BY k)", "ORDER BY k", "BadProjection"),
    # Codecs.
    ("k UInt8 CODEC(LZ4)", "ORDER BY k", "Codec"),
    ("k UInt8 CODEC(none)", "ORDER BY k", "Codec"),
    ("k UInt8 CODEC(NONE(1))", "ORDER BY k", "Codec"),
    ("k UInt8 CODEC(NONE, NONE)", "ORDER BY k", "Codec"),
    # Settings.
    ("k UInt8", "ORDER BY k SETTINGS index_granularity = 0", "Setting"),
    ("k UInt8", "ORDER BY k SETTINGS index_granularity = 1048577", "Setting"),
    ("k UInt8", "ORDER BY k SETTINGS index_granularity = '2'", "Setting"),
    ("k UInt8", "ORDER BY k SETTINGS index_granularity = abc", "Setting"),
    ("k UInt8", "ORDER BY k SETTINGS index_granularity_bytes = 0", "Setting"),
    ("k UInt8", "ORDER BY k SETTINGS index_granularity_bytes = 1073741825", "Setting"),
    ("k UInt8", "ORDER BY k SETTINGS index_granularity = 2, index_granularity = 2", "Setting"),
    ("k UInt8", "ORDER BY k SETTINGS min_rows_for_wide_part = 1, min_rows_for_wide_part = 1", "Setting"),
    # An earlier rule comes first.
    ("k UInt8 CODEC(LZ4), PROJECTION p (SELECT k)", "ORDER BY k SETTINGS index_granularity = 0", "BadProjection"),
]

# Elements and clauses of good tables.
GOOD = [
    ("k UInt8", "ORDER BY k PRIMARY KEY k"),
    ("indexes UInt8", "ORDER BY indexes;"),
    ("`index` UInt8, `PROJECTION` Int8", "ORDER BY (`index`, PROJECTION) ;"),
    ("k Array ( Nullable ( FixedString ( 016 ) ) ), d Date", "PARTITION BY d ORDER BY d"),
    ("k UInt8 CODEC(NONE), v String COMMENT 'it\\'s' CODEC ( NONE )", "ORDER BY k COMMENT 'c'"),
    ("a UInt8, b FixedString(65535), c String, d Date, e Int64", "ORDER BY (a, b, c, d, e) PRIMARY KEY (a, b)"),
    ("d Date", "PARTITION BY (d, toYYYYMM(d)) ORDER BY d"),
    ("k UInt8, INDEX i k TYPE set(0) GRANULARITY 1048576", "ORDER BY k"),
    ("k UInt8, INDEX i k TYPE set(4194304)", "ORDER BY k"),
    ("skp_idx_j UInt8, INDEX i skp_idx_j TYPE minmax", "ORDER BY skp_idx_j"),
    ("p UInt8, INDEX p p TYPE minmax, PROJECTION p (SELECT p ORDER BY p)", "ORDER BY p"),
    ("k UInt8, v Date, PROJECTION p (SELECT count(), v, k, MAX(v), sum(k) GROUP BY k, v)", "ORDER BY k"),
    ("k UInt8, v Nullable(UInt8), PROJECTION p (SELECT v, k ORDER BY k)", "ORDER BY k"),
    ("k UInt8, PROJECTION p (SELECT k, min(k), max(k), sum(k), count() GROUP BY (k))", "ORDER BY k"),
    ("a Array(Array(Array(Nullable(String)))), k Int8", "ORDER BY k"),
    ("k UInt128, i Int128, z DateTime('UTC')", "PARTITION BY (z, k) ORDER BY (k, i, z)"),
    ("k UInt8, a Array(DateTime ( 'UTC' )), n Nullable(UInt128)", "ORDER BY k"),
    ("k UInt128, z DateTime('UTC'), INDEX i z TYPE minmax, INDEX j k TYPE set(2)", "ORDER BY k"),
    ("k UInt128, z DateTime('UTC'), PROJECTION p (SELECT z, k ORDER BY (z, k))", "ORDER BY k"),
    ("k UInt128, z DateTime('UTC'), PROJECTION p (SELECT z, k, count() GROUP BY (z, k))", "ORDER BY k"),
    ("k UInt8", "SETTINGS min_bytes_for_wide_part = 0 ORDER BY (k) PRIMARY KEY (k) PARTITION BY (k)"),
]

# As SHOW CREATE TABLE lays it out.
VISITS = """CREATE TABLE default.visits
(
    `d` Date,
    `user` UInt32,
    `url` String,
    `dur` UInt16,
    `tag` Nullable(String),
    INDEX i_dur dur TYPE minmax GRANULARITY 2,
    INDEX i_url url TYPE set(100) GRANULARITY 1,
    PROJECTION by_url
    (
        SELECT
            url,
            count(),
            sum(dur)
        GROUP BY url
    ),
    PROJECTION by_dur
    (
        SELECT
            d,
            user,
            dur
        ORDER BY dur
    )
)
ENGINE = MergeTree
PARTITION BY toYYYYMM(d)
ORDER BY (user, d)
SETTINGS index_granularity = 8192, storage_policy = 'default'
"""

# Sentences, of which most have types that are no types: nothing is wrong with their form.
SENTENCES = [
    "CREATE TABLE t (k UInt64) ENGINE = MergeTree ORDER BY k",
    "create table t(k UInt64)engine=MergeTree order by k;",
    "CrEaTe TaBlE t (k UInt64) EnGiNe = MergeTree() OrDeR bY (k) ;\n",
    "CREATE TABLE IF NOT EXISTS t (k A) ENGINE = MergeTree ORDER BY k",
    "create table if Not exists d.t (k A) ENGINE = MergeTree ORDER BY k",
    "CREATE TABLE if (k A) ENGINE = MergeTree ORDER BY k",
    "CREATE TABLE IF.NOT (k A) ENGINE = MergeTree ORDER BY k",
    "CREATE TABLE IF NOT EXISTS if.if (k A) ENGINE = MergeTree ORDER BY k",
    "CREATE TABLE `if` UUID 'x' (k A) ENGINE = MergeTree ORDER BY k",
    "CREATE TABLE uuid uuid '' (k A) ENGINE = MergeTree ORDER BY k",
    "CREATE TABLE `a`.`b` (k A) ENGINE = MergeTree ORDER BY k",
    "CREATE TABLE t (k A ( 007 ,B(C),D)) ENGINE = MergeTree ORDER BY k",
    "CREATE TABLE t (k A('x', 1 ,'it\\'s',B('')) ) ENGINE = MergeTree ORDER BY k",
    "CREATE TABLE t (k A(18446744073709551615)) ENGINE = MergeTree ORDER BY k",
    "CREATE TABLE t (k a(a(a(a(a(a(a(a(1))))))))) ENGINE = MergeTree ORDER BY k",
    "CREATE TABLE t (k COMMENT) ENGINE = MergeTree ORDER BY k",
    "CREATE TABLE t (k CODEC(NONE)) ENGINE = MergeTree ORDER BY k",
    "CREATE TABLE t (k A COMMENT 'it\\'s') ENGINE = MergeTree ORDER BY k",
    "CREATE TABLE t (k A comment 'x' codec(NONE)) ENGINE = MergeTree ORDER BY k",
    "CREATE TABLE t (k A(1) CODEC(x(1), NONE)) ENGINE = MergeTree ORDER BY k",
    "CREATE TABLE t (`index` A, `PROJECTION` B) ENGINE = MergeTree ORDER BY index",
    "CREATE TABLE t (create A, comment B, group C) ENGINE = MergeTree ORDER BY (create, group)",
    "CREATE TABLE t (k A, index i k type minmax) ENGINE = MergeTree ORDER BY k",
    "CREATE TABLE t (InDeX `index` `type` TyPe set(007) granularity 9, k A) ENGINE = MergeTree ORDER BY k",
    "CREATE TABLE t (k A, PROJECTION p (SELECT * ORDER BY k)) ENGINE = MergeTree ORDER BY k",
    "CREATE TABLE t (k A, projection p (select k group by k, `j`)) ENGINE = MergeTree ORDER BY k",
    "CREATE TABLE t (k A, PROJECTION p (SELECT COUNT(), Sum(k), MIN(j), max(`count`), count GROUP BY (k, j) ORDER BY (i))) ENGINE = MergeTree ORDER BY k",
    "CREATE TABLE t (k A, PROJECTION p (SELECT group, order, `sum` GROUP BY group)) ENGINE = MergeTree ORDER BY k",
    "CREATE TABLE t (k A, PROJECTION p (SELECT k)) ENGINE = MergeTree ORDER BY k",
    "CREATE TABLE t (k A) ENGINE = MergeTree PRIMARY KEY k ORDER BY (k, j)",
    "CREATE TABLE t (k A) ENGINE = MergeTree () ORDER BY (k) primary key (k,j) partition by k",
    "CREATE TABLE t (k A) ENGINE = MergeTree SETTINGS a = 1, B = c, d = 'e' PARTITION BY (toYYYYMM(k), j, toYYYYMM) ORDER BY k",
    "CREATE TABLE t (k A) ENGINE = MergeTree PARTITION BY toYYYYMM ORDER BY k SETTINGS a = 1",
    "CREATE TABLE t (k A) ENGINE = MergeTree ORDER BY k SETTINGS a = COMMENT COMMENT 'x';",
    "CREATE TABLE t (k A) ENGINE = MergeTree ORDER BY order COMMENT 'x'",
    "CREATE TABLE t (k A) ENGINE = MergeTree ORDER BY comment comment '' ;",
    "CREATE TABLE t (k A) ENGINE = MergeTree ORDER BY k PRIMARY KEY primary",
    "CREATE TABLE t (k A) ENGINE = MergeTree SETTINGS settings = settings ORDER BY k",
    "CREATE TABLE t (k A) ENGINE = MergeTree PARTITION BY partition ORDER BY k",
    "CREATE TABLE t (k A) ENGINE = MergeTree PARTITION BY (k) ORDER BY k",
    "CREATE\tTABLE\r\nt(k A)ENGINE=MergeTree ORDER\nBY k\n\n",
    "CREATE TABLE t (INDEX i k TYPE minmax, k A, PROJECTION p (SELECT k)) ENGINE = MergeTree ORDER BY k",
]

# Texts that are no sentences.
NO_SENTENCES = [
    "CREATE TABLE t (k A(1) CODEC(x(1), y, `z)) ENGINE = MergeTree ORDER BY k",
    "",
    ";",
    "'",
    "CREATE TABLE",
    "CREATE TABLE t",
    "CREATE t (k A) ENGINE = MergeTree ORDER BY k",
    "CREATETABLE t (k A) ENGINE = MergeTree ORDER BY k",
    "`CREATE` TABLE t (k A) ENGINE = MergeTree ORDER BY k",
    "CREATE TABLE (k A) ENGINE = MergeTree ORDER BY k",
    "CREATE TABLE IFNOT EXISTS t (k A) ENGINE = MergeTree ORDER BY k",
    "CREATE TABLE IF NOT EXISTS (k A) ENGINE = MergeTree ORDER BY k",
    "CREATE TABLE IF EXISTS t (k A) ENGINE = MergeTree ORDER BY k",
    "CREATE TABLE `IF` NOT EXISTS t (k A) ENGINE = MergeTree ORDER BY k",
    "CREATE TABLE a.b.c (k A) ENGINE = MergeTree ORDER BY k",
    "CREATE TABLE .t (k A) ENGINE = MergeTree ORDER BY k",
    "CREATE TABLE t UUID (k A) ENGINE = MergeTree ORDER BY k",
    "CREATE TABLE t UUID x (k A) ENGINE = MergeTree ORDER BY k",
    "CREATE TABLE t123456789012345678901234567890123456789012345678901234567890abcd (k A) ENGINE = MergeTree ORDER BY k",
    "CREATE TABLE t () ENGINE = MergeTree ORDER BY k",
    "CREATE TABLE t (INDEX i k TYPE minmax) ENGINE = MergeTree ORDER BY k",
    "CREATE TABLE t (k A,) ENGINE = MergeTree ORDER BY k",
    "CREATE TABLE t (k A j B) ENGINE = MergeTree ORDER BY k",
    "CREATE TABLE t (k) ENGINE = MergeTree ORDER BY k",
    "CREATE TABLE t (k `A`) ENGINE = MergeTree ORDER BY k",
    "CREATE TABLE t (k A()) ENGINE = MergeTree ORDER BY k",
    "CREATE TABLE t (k A(1,)) ENGINE = MergeTree ORDER BY k",
    "CREATE TABLE t (k A('x)) ENGINE = MergeTree ORDER BY k",
    "CREATE TABLE t (k A('x' 'y')) ENGINE = MergeTree ORDER BY k",
    "CREATE TABLE t (k 'x') ENGINE = MergeTree ORDER BY k",
    "CREATE TABLE t (k A(18446744073709551616)) ENGINE = MergeTree ORDER BY k",
    "CREATE TABLE t (k a(a(a(a(a(a(a(a(a(1)))))))))) ENGINE = MergeTree ORDER BY k",
    "CREATE TABLE t (k A CODEC()) ENGINE = MergeTree ORDER BY k",
    "CREATE TABLE t (k A CODEC(x(y))) ENGINE = MergeTree ORDER BY k",
    "CREATE TABLE t (k A CODEC(x(18446744073709551616))) ENGINE = MergeTree ORDER BY k",
    "CREATE TABLE t (k A CODEC(NONE) COMMENT 'x') ENGINE = MergeTree ORDER BY k",
    "CREATE TABLE t (k A COMMENT x) ENGINE = MergeTree ORDER BY k",
    "CREATE TABLE t (index A) ENGINE = MergeTree ORDER BY index",
    "CREATE TABLE t (k A, INDEX i k minmax) ENGINE = MergeTree ORDER BY k",
    "CREATE TABLE t (k A, INDEX i k TYPE MinMax) ENGINE = MergeTree ORDER BY k",
    "CREATE TABLE t (k A, INDEX i k TYPE set) ENGINE = MergeTree ORDER BY k",
    "CREATE TABLE t (k A, INDEX i k TYPE minmax GRANULARITY) ENGINE = MergeTree ORDER BY k",
    "CREATE TABLE t (k A, PROJECTION p SELECT k) ENGINE = MergeTree ORDER BY k",
    "CREATE TABLE t (k A, PROJECTION p (SELECT)) ENGINE = MergeTree ORDER BY k",
    "CREATE TABLE t (k A, PROJECTION p (SELECT *, k)) ENGINE = MergeTree ORDER BY k",
    "CREATE TABLE t (k A, PROJECTION p (SELECT count(k))) ENGINE = MergeTree ORDER BY k",
    "CREATE TABLE t (k A, PROJECTION p (SELECT `count`())) ENGINE = MergeTree ORDER BY k",
    "CREATE TABLE t (k A, PROJECTION p (SELECT avg(k))) ENGINE = MergeTree ORDER BY k",
    "CREATE TABLE t (k A, PROJECTION p (SELECT k ORDER BY k GROUP BY k)) ENGINE = MergeTree ORDER BY k",
    "CREATE TABLE t (k A) ENGINE = MergeTree",
    "CREATE TABLE t (k A) ENGINE = MergeTree PRIMARY KEY k",
    "CREATE TABLE t (k A) ENGINE = mergetree ORDER BY k",
    "CREATE TABLE t (k A) ENGINE MergeTree ORDER BY k",
    "CREATE TABLE t (k A) ENGINE = MergeTree ORDER BY k, j",
    "CREATE TABLE t (k A) ENGINE = MergeTree ORDER BY ()",
    "CREATE TABLE t (k A) ENGINE = MergeTree ORDER BY k ORDER BY k",
    "CREATE TABLE t (k A) ENGINE = MergeTree PARTITION BY k ORDER BY k PARTITION BY k",
    "CREATE TABLE t (k A) ENGINE = MergeTree PARTITION BY k, j ORDER BY k",
    "CREATE TABLE t (k A) ENGINE = MergeTree PARTITION BY toyyyymm(k) ORDER BY k",
    "CREATE TABLE t (k A) ENGINE = MergeTree ORDER BY k SETTINGS",
    "CREATE TABLE t (k A) ENGINE = MergeTree ORDER BY k SETTINGS a = 18446744073709551616",
    "CREATE TABLE t (k A) ENGINE = MergeTree ORDER BY k COMMENT 'x' SETTINGS a = 1",
    "CREATE TABLE t (k A) ENGINE = MergeTree ORDER BY k;;",
    "CREATE TABLE t (k A) ENGINE = MergeTree ORDER BY k; 'x'",
]

# How many columns `c0`, `c1` and so on, what follows them, the name that is counted and what follows it, how the text
# ends, and how many there may be.
END = "x UInt8) ENGINE = MergeTree ORDER BY x"

COUNTS = [
    (0, "", "c", " UInt8, ", END, 255),
    (1, "", "INDEX i", " c0 TYPE minmax, ", END, 16),
    (1, "", "PROJECTION p", " (SELECT * ORDER BY c0), ", END, 8),
    (18, "x UInt8) ENGINE = MergeTree ORDER BY (x, ", "c", ", ", "c17)", 14),
    (18, "x UInt8) ENGINE = MergeTree ORDER BY x PARTITION BY (x, ", "c", ", ", "c17)", 2),
    (18, "PROJECTION p (SELECT * ORDER BY ", "c", ", ", "c17), x UInt8) ENGINE = MergeTree ORDER BY x", 15),
    (
        18,
        "PROJECTION p (SELECT c17, ",
        "sum(c",
        "), ",
        "count() GROUP BY c17), x UInt8) ENGINE = MergeTree ORDER BY x",
        15,
    ),
    (2, "INDEX j c0 TYPE set(1), ", "INDEX i", " c0 TYPE minmax, ", END, 15),
]


# The longest text that is read, in bytes.
LONGEST = 1048576


def reading(name, texts):
    """Texts and what is wrong with each first, if anything: a call reads the table, and finds no part."""
    files = {f"{at}.sql": text.encode("latin-1") for at, (text, _) in enumerate(texts)}
    notes = [f"bad table: {why}" if why else "none: no part" for _, why in texts]
    return Story(name, files, [refused(["rows", f"{at}.sql", "none"], note) for at, note in enumerate(notes)])


def counted():
    """Each count at its limit, and past it."""
    for columns, more, name, rest, end, most in COUNTS:
        for count in (most, most + 1):
            text = "".join(f"c{n} UInt8, " for n in range(columns)) + more + "".join(f"{name}{n}{rest}" for n in range(count))
            yield f"CREATE TABLE t ({text}{end}", "TooMany" if most < count else None


def long_texts():
    """Texts as long as one may be."""
    names = [f"c{n}" for n in range(38000)]
    keys = "x UInt8, PROJECTION p (SELECT " + "".join(f"{name}, " for name in names) + "x ORDER BY x)"
    text = "".join(f"{name} Date, " for name in names) + keys
    yield create(text, "ORDER BY (x" + ",c7" * 80000 + ")").ljust(LONGEST), "BadKey"
    yield create("".join(f"c{n} Date," for n in range(84000)) + "x UInt8", "ORDER BY x").ljust(LONGEST), "TooMany"


def stories():
    yield reading("the first broken rule", [(create(elements, clauses), why) for elements, clauses, why in REFUSED])
    yield reading("good tables", [(VISITS, None)] + [(create(*it), None) for it in GOOD])
    yield reading("sentences", [(text, None if "UInt64)" in text.split("ENGINE")[0] else "NotAType") for text in SENTENCES])
    yield reading("no sentences", [(text, "Syntax") for text in NO_SENTENCES])
    yield reading("counts", list(counted()))
    yield reading("long texts", list(long_texts()))
