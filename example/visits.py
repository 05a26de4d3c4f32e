#!/usr/bin/env python3
"""Prints lines of made visits to a site in January 2024, always the same for the same words.

    example/visits.py [ROWS [SEED]]      5,000 rows from the seed 1, if not said"""

import datetime
import random
import sys

# Pages, and how often each is visited beside the others.
PAGES = {"/": 40, "/docs": 18, "/docs/install": 9, "/pricing": 12, "/blog": 8, "/blog/merge-trees": 5, "/search?q=parts": 4, "/login": 10, "/contact": 2}
TAGS = [(r"\N", 60), ("ad:spring", 15), ("mail", 15), ("partner's", 6), ("", 4)]
BEGIN = datetime.datetime(2024, 1, 1)


def escaped(text):
    return text.replace("'", "\\'")


def visit(numbers):
    """The fields of a visit: most users come seldom and a few often, more by day than by night; most visits are short."""
    at = BEGIN + datetime.timedelta(days=numbers.randrange(31), hours=min(23, int(numbers.betavariate(4, 3) * 24)), seconds=numbers.randrange(3600))
    user = 1000 + int(numbers.paretovariate(1.2) * 20) % 900
    url = numbers.choices(list(PAGES), PAGES.values())[0]
    dur = min(3600, int(numbers.lognormvariate(3.5, 1.2)))
    tag = numbers.choices([tag for tag, _ in TAGS], [often for _, often in TAGS])[0]
    clicks = [numbers.randrange(1, 400) for _ in range(min(6, dur // 40))]
    tag = tag if tag == r"\N" else escaped(tag)
    return at.date(), at, user, url, dur, tag, f"[{','.join(map(str, clicks))}]"


def main():
    rows = int(sys.argv[1]) if len(sys.argv) > 1 else 5_000
    numbers = random.Random(int(sys.argv[2]) if len(sys.argv) > 2 else 1)
    for _ in range(rows):
        print(*visit(numbers), sep="\t")


if __name__ == "__main__":
    main()
