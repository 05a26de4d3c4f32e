"""Runs what the documents show.

In README.md and in each file of docs/ every line of a block that begins with `$ ` is a call of the shell, and the lines below
it, up to the next call or the end of the block, are what it prints (on either output). The calls of a document run one after
another in a folder of its own, in which lie the file u.sql of the tables' example and the folder example/, with the program on
the path. Each table text in a block of sql is one that the program reads. Each check is a name and what is wrong, if anything."""

import os
import shutil
import subprocess
import tempfile

TOP = os.path.dirname(os.path.dirname(os.path.abspath(__file__)))


def paths():
    docs = os.path.join(TOP, "docs")
    return [os.path.join(TOP, "README.md"), *sorted(os.path.join(docs, name) for name in os.listdir(docs) if name.endswith(".md"))]


def blocks(text):
    """The blocks of a document, each its language and its lines: those between fences, and those indented by four blanks."""
    language, lines = None, []
    for line in text.split("\n"):
        if language is None and line.startswith("```"):
            yield "", lines
            language, lines = line[3:].strip() or "fence", []
        elif language is not None and line == "```":
            yield language, lines
            language, lines = None, []
        elif language is not None:
            lines.append(line)
        elif line.startswith("    "):
            lines.append(line[4:])
        else:
            yield "", lines
            lines = []


def calls(text):
    """Each call of a document, and what it is shown to print."""
    for _, lines in blocks(text):
        call, printed = None, []
        for line in lines:
            if call is not None and call.endswith("\\") and not printed:
                call += "\n" + line
            elif line.startswith("$ "):
                if call is not None:
                    yield call, "".join(it + "\n" for it in printed)
                call, printed = line[2:], []
            elif call is not None:
                printed.append(line)
        if call is not None:
            yield call, "".join(it + "\n" for it in printed)


def tables(text):
    """The table texts in the document's blocks of sql."""
    for language, lines in blocks(text):
        if language == "sql" and lines[0].startswith("CREATE TABLE"):
            yield "\n".join(lines) + "\n"


def stand_in_for_ssh(folder):
    """An `ssh` that runs the command here, in place of a host, since the documents show how a list is shared by it."""
    path = os.path.join(folder, "ssh")
    with open(path, "w", encoding="utf-8") as file:
        file.write('#!/bin/sh\nshift\nexec sh -c "$*"\n')
    os.chmod(path, 0o755)


def shown(path, program):
    """The calls of a document that print something else than it shows."""
    with open(path, encoding="utf-8") as file:
        text = file.read()
    folder, tools = tempfile.mkdtemp(prefix="mtpart-docs-"), tempfile.mkdtemp(prefix="mtpart-docs-")
    try:
        shutil.copytree(os.path.join(TOP, "example"), os.path.join(folder, "example"))
        shutil.copy(os.path.join(TOP, "example", "u.sql"), folder)
        stand_in_for_ssh(tools)
        environment = {**os.environ, "PATH": f"{tools}:{os.path.dirname(program)}:{os.environ['PATH']}", "LC_ALL": "C"}
        for line, wanted in calls(text):
            done = subprocess.run(["bash", "-c", line], cwd=folder, env=environment, stdin=subprocess.DEVNULL, stdout=subprocess.PIPE, stderr=subprocess.STDOUT, timeout=110)
            got = done.stdout.decode(errors="replace")
            yield f"{os.path.relpath(path, TOP)}: {line[:100]}", "" if got == wanted else f"it prints {got!r}, shown is {wanted!r}"
        for number, table in enumerate(tables(text)):
            with open(os.path.join(folder, "table.sql"), "w", encoding="utf-8") as file:
                file.write(table)
            done = subprocess.run([program, "rows", "table.sql", "no/part"], cwd=folder, capture_output=True, text=True)
            yield f"{os.path.relpath(path, TOP)}: table {number + 1}", "" if done.stderr == "mtpart: no/part: no part\n" else done.stderr
    finally:
        shutil.rmtree(folder)
        shutil.rmtree(tools)


def tour(program):
    """Whether example/tour prints example/tour.txt."""
    with open(os.path.join(TOP, "example", "tour.txt"), encoding="utf-8") as file:
        wanted = file.read()
    environment = {**os.environ, "PATH": f"{os.path.dirname(program)}:{os.environ['PATH']}", "LC_ALL": "C"}
    done = subprocess.run([os.path.join(TOP, "example", "tour")], env=environment, capture_output=True, text=True, timeout=110)
    yield "example/tour prints example/tour.txt", "" if done.stdout == wanted and not done.stderr else f"it prints {done.stdout[-600:]!r} {done.stderr[-200:]!r}"


def checks(program):
    for path in paths():
        yield from shown(path, program)
    yield from tour(program)
