"""The form of the tables below tests/tables: stories, each some files and then calls of the program over them."""

from typing import NamedTuple


class Step(NamedTuple):
    """A call: its words, its input, and what it answers. The note stands without `mtpart: ` and its line end."""

    words: list
    stdin: str = ""
    status: int = 0
    stdout: str = ""
    note: str = ""
    files: dict = {}


class Story(NamedTuple):
    """What a story is about, the files that lie there beforehand, and the calls, one after another."""

    name: str
    files: dict
    steps: list


def refused(words, note, stdin="", status=2):
    """A call that is refused with this note."""
    return Step(words, stdin, status, "", note)


def frames(payloads, checksum=b"\x07"):
    """Frames of these payloads, with checksums that the writer would not have."""
    return b"".join(checksum * 16 + b"\x02" + u32(len(it) + 9) + u32(len(it)) + it for it in payloads)


def numbers(values):
    """Numbers as a marks file has them."""
    return b"".join(value.to_bytes(8, "little") for value in values)


def u32(value):
    return value.to_bytes(4, "little")


def create(elements, clauses):
    """The text of a table of these elements and clauses."""
    return f"CREATE TABLE t ({elements}) ENGINE = MergeTree {clauses}"
