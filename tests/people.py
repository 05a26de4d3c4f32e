"""What people touch: the manual page, the completions, and what is installed. Each check is a name and what is wrong, if anything."""

import os
import re
import shutil
import subprocess
import tempfile

TOP = os.path.dirname(os.path.dirname(os.path.abspath(__file__)))
COMPLETIONS = ("mtpart.bash", "_mtpart", "mtpart.fish")

# Completions of a line of words in bash: the words before the cursor, and what must be offered in a folder that has a file and a folder.
COMPLETED = [
    (["mtpart", ""], ["write", "check", "rows", "show", "select", "merge", "trial"]),
    (["mtpart", "s"], ["show", "select"]),
    (["mtpart", "check", ""], ["a folder", "part", "t.sql"]),
    (["mtpart", "check", "t.sql", ""], ["a folder", "part"]),
    (["mtpart", "check", "t.sql", "part", "6"], ["64"]),
    (["mtpart", "select", "t.sql", "part", ""], []),
    (["mtpart", "merge", "t.sql", "1"], ["1", "16"]),
    (["mtpart", "merge", "t.sql", "1", "p"], ["part"]),
    (["mtpart", "merge", "t.sql", "1", "out", "part", "a"], ["a folder"]),
    (["mtpart", "trial", ""], []),
]


def text(*path):
    with open(os.path.join(TOP, *path), encoding="utf-8") as file:
        return file.read()


def commands():
    """The commands by their headings in docs/CLI.md."""
    return re.findall(r"^## `([a-z]+) ", text("docs", "CLI.md"), re.M) + re.findall(r"^## `([a-z]+)`", text("docs", "CLI.md"), re.M)


def named():
    """What docs/CLI.md names that the manual page must: words of its commands, notes, faults, limits and statuses."""
    cli = text("docs", "CLI.md")
    yield from commands()
    for row in re.findall(r"^\|(.*)\|$", cli, re.M):
        cells = row.split("|")
        for cell in cells[:2]:
            for span in re.findall(r"`([^`]+)`", cell):
                if span not in ("mtpart: ", "PART", "IN", "FILE: WHY", "PART: FILE: WHY", "IN: FILE: WHY", "select", " granule G", " at A", "WHY"):
                    yield span
        yield from re.findall(r"\b\d{1,3}(?:,\d{3})+\b", cells[0])
    yield from re.findall(r"^\| (\d) \|", cli, re.M)


def manual_page():
    """What docs/CLI.md names and docs/mtpart.1 doesn't, and what a formatter says of the page."""
    page = re.sub(r"\\-", "-", text("docs", "mtpart.1"))
    lacking = sorted({word for word in named() if not re.search(rf"(?<![\w,]){re.escape(word)}(?![\w,]\w)", page)})
    yield "the manual page names what docs/CLI.md names", f"it lacks {', '.join(lacking)}" if lacking else ""
    path = os.path.join(TOP, "docs", "mtpart.1")
    if shutil.which("mandoc"):
        said = subprocess.run(["mandoc", "-T", "lint", "-W", "warning", path], capture_output=True, text=True).stdout
        yield "mandoc -T lint of the manual page", said
    elif shutil.which("man"):
        said = subprocess.run(["man", "--warnings", "-E", "UTF-8", "-l", "-Tutf8", "-Z", path], capture_output=True, text=True).stderr
        yield "man --warnings of the manual page", said


def completed(words, folder):
    """What bash offers for the last of these words."""
    script = 'source "$1"; shift; COMP_WORDS=("$@"); COMP_CWORD=$(($# - 1)); _mtpart; printf "%s\\n" "${COMPREPLY[@]}"'
    done = subprocess.run(["bash", "-c", script, "bash", os.path.join(TOP, "completions", "mtpart.bash"), *words], cwd=folder, capture_output=True, text=True)
    return [line for line in done.stdout.splitlines() if line] if not done.stderr else [done.stderr]


def completions():
    """The completions of each shell name every command, and are read by the shells that are installed; those of bash are tried."""
    for name in COMPLETIONS:
        lacking = [word for word in commands() if not re.search(rf"\b{word}\b", text("completions", name))]
        yield f"completions/{name}", f"it lacks {lacking}" if lacking else ""
    for shell, name in (("bash", COMPLETIONS[0]), ("zsh", COMPLETIONS[1]), ("fish", COMPLETIONS[2])):
        if shutil.which(shell):
            done = subprocess.run([shell, "-n", os.path.join(TOP, "completions", name)], capture_output=True, text=True)
            yield f"completions/{name} in {shell}", done.stderr
    with tempfile.TemporaryDirectory() as folder:
        for name in ("part", "a folder"):
            os.mkdir(os.path.join(folder, name))
        open(os.path.join(folder, "t.sql"), "w", encoding="utf-8").close()
        for words, wanted in COMPLETED:
            got = completed(words, folder)
            yield f"bash completes {words}", f"{got}, wanted {wanted}" if sorted(got) != sorted(wanted) else ""


def installed():
    """Installs from a copy of what is installed, with a stand-in for the program and for rt, and takes it away again."""
    with tempfile.TemporaryDirectory() as folder:
        copy, prefix, tools = (os.path.join(folder, name) for name in ("copy", "a prefix", "tools"))
        for name in ("build", "install", "uninstall", "installed.txt", "docs/mtpart.1", *(f"completions/{name}" for name in COMPLETIONS)):
            os.makedirs(os.path.dirname(os.path.join(copy, name)), exist_ok=True)
            shutil.copy2(os.path.join(TOP, name), os.path.join(copy, name))
        lay_stand_ins(copy, tools)
        environment = {**os.environ, "PATH": f"{tools}:{os.environ['PATH']}"}
        call = lambda name: subprocess.run([os.path.join(copy, name), prefix], env=environment, capture_output=True, text=True)
        calls = lambda: text(folder, "calls") if os.path.exists(os.path.join(folder, "calls")) else ""
        done = call("install")
        yield "install", done.stderr if done.returncode else ""
        yield "install builds the crates below the program, lowest first", wrong(calls().split(), "low lib high lib mtpart run".split())
        lines = [line.split() for line in text(copy, "installed.txt").splitlines() if not line.startswith("#")]
        other = [to for _, source, to in lines if not same(os.path.join(copy, source), os.path.join(prefix, to))]
        yield "what is installed", f"not the same: {other}" if other else ""
        yield "the program is one that runs", "" if os.access(os.path.join(prefix, "bin", "mtpart"), os.X_OK) else "it isn't"
        again = call("install")
        yield "a second install builds nothing", again.stderr or wrong(len(calls().split()), 6)
        os.makedirs(os.path.join(prefix, "share", "man", "man1"), exist_ok=True)
        open(os.path.join(prefix, "share", "man", "man1", "other.1"), "w", encoding="utf-8").close()
        call("uninstall")
        left = [os.path.relpath(os.path.join(at, name), prefix) for at, _, names in os.walk(prefix) for name in names]
        yield "uninstall leaves what others put there", wrong(left, ["share/man/man1/other.1"])
        yield "and no empty folder", wrong(sorted(os.listdir(prefix)), ["share"])


def lay_stand_ins(copy, tools):
    """Two crates below the program and one that isn't, and an rt that notes its calls and makes the program."""
    os.makedirs(tools)
    with open(os.path.join(copy, "crates.txt"), "w", encoding="utf-8") as file:
        file.write("# crates\nmtpart: high\nlow:\nhigh: low std_of_kit\nother: low\n")
    for name in ("low", "high", "other", "mtpart"):
        os.makedirs(os.path.join(copy, "crates", name))
        open(os.path.join(copy, "crates", name, "lib.rt"), "w", encoding="utf-8").close()
    path = os.path.join(tools, "rt")
    with open(path, "w", encoding="utf-8") as file:
        file.write('#!/bin/sh\necho "$(basename "$PWD") $1" >> ../../../calls\n[ "$1" != run ] || { mkdir -p out; echo program > out/mtpart; chmod 755 out/mtpart; exit 2; }\n')
    os.chmod(path, 0o755)


def same(one, other):
    """Whether both files are there with the same bytes."""
    try:
        with open(one, "rb") as left, open(other, "rb") as right:
            return left.read() == right.read()
    except OSError:
        return False


def wrong(got, wanted):
    return "" if got == wanted else f"{got}, wanted {wanted}"


def checks():
    yield from manual_page()
    yield from completions()
    yield from installed()
