CREATE TABLE default.visits
(
    `d` Date,
    `at` DateTime('UTC'),
    `user` UInt32,
    `url` String,
    `dur` UInt16,
    `tag` Nullable(String) CODEC(NONE),
    `clicks` Array(UInt16),
    INDEX i_dur dur TYPE minmax GRANULARITY 2,
    INDEX i_url url TYPE set(100) GRANULARITY 1,
    PROJECTION by_url
    (
        SELECT
            url,
            count(),
            sum(dur)
        GROUP BY url
    ),
    PROJECTION by_dur
    (
        SELECT
            d,
            user,
            dur
        ORDER BY dur
    )
)
ENGINE = MergeTree
PARTITION BY toYYYYMM(d)
ORDER BY (user, at)
SETTINGS index_granularity = 1024, min_bytes_for_wide_part = 0
