"""Runs the gate on a fresh copy of the repository's last commit, and prints the processor's time of each crate as a table.

    bench/gate [--anew] [NAME ..]

`--anew` proves all, whatever earlier runs kept. With names only these crates and those below them are run, and `tests/run`
isn't. Times are in seconds of one processor: `proof` is the check of the crate, `tests` that of its test functions, `seed`
the check that its must-fail edits begin with, and `edits` these. They are what is seen of each process twice a second."""

import os
import resource
import subprocess
import sys
import tempfile
import threading

TOP = os.path.dirname(os.path.dirname(os.path.abspath(__file__)))
KINDS = ("proof", "tests", "seed", "edits")
TICK = os.sysconf("SC_CLK_TCK")


def processes():
    """Each process: its parent, when it began, and the ticks that it and those that it waited for have taken."""
    found = {}
    for name in filter(str.isdigit, os.listdir("/proc")):
        try:
            with open(f"/proc/{name}/stat", encoding="utf-8", errors="replace") as file:
                fields = file.read().rpartition(")")[2].split()
        except OSError:
            continue
        found[int(name)] = int(fields[1]), (int(name), fields[19]), sum(map(int, fields[11:15]))
    return found


def words_of(pid):
    try:
        with open(f"/proc/{pid}/cmdline", "rb") as file:
            return file.read().decode(errors="replace").split("\0")
    except OSError:
        return []


def kind_of(words):
    """The crate of a prover's words, and what it is proved for; none for other words."""
    if os.path.basename(words[0]) != "rattle" or "--crate-name" not in words:
        return None
    crate = words[words.index("--crate-name") + 1]
    if "--test" in words:
        return crate, "tests"
    if words[1] == "check" and "-o" not in words:
        return crate, "seed" if any(word.endswith("/seed") for word in words) else "edits"
    return crate, "proof"


class Sampler(threading.Thread):
    """Looks at the processes below this one until it is told to stop."""

    def __init__(self):
        super().__init__(daemon=True)
        self.stop = threading.Event()
        self.kinds = {}  # by process: its crate and kind, or None
        self.ticks = {}  # by prover: the most that it was seen to have taken

    def run(self):
        while not self.stop.wait(0.5):
            self.look()

    def look(self):
        found = processes()
        below = {}
        for pid, (parent, _, _) in found.items():
            below.setdefault(parent, []).append(pid)
        todo, taken = [(os.getpid(), None)], {}
        while todo:
            pid, root = todo.pop()
            for child in below.get(pid, []):
                _, key, ticks = found[child]
                # (a process has other words once it begins another program)
                self.kinds[key] = self.kinds.get(key) or kind_of(words_of(child) or [""])
                top = root or (key if self.kinds[key] else None)
                taken[top] = taken.get(top, 0) + ticks
                todo.append((child, top))
        taken.pop(None, None)
        for key, ticks in taken.items():
            self.ticks[key] = max(self.ticks.get(key, 0), ticks)

    def seconds(self):
        """The seconds by crate and kind."""
        sums = {}
        for key, ticks in self.ticks.items():
            crate, kind = self.kinds[key]
            sums.setdefault(crate, dict.fromkeys(KINDS, 0.0))[kind] += ticks / TICK
        return sums


def crates_below():
    """The crates that each crate stands on, lowest first."""
    with open(os.path.join(TOP, "crates.txt"), encoding="utf-8") as file:
        lines = [line.split("#")[0].partition(":") for line in file]
    named = {head.split()[0]: rest.split() for head, _, rest in lines if head.strip()}
    return {name: [it for it in deps if it in named] for name, deps in named.items()}


def chain_of(sums):
    """The chain of crates, each on the next lower, whose proofs take longest together, and its seconds."""
    below, best = crates_below(), {}

    def longest(name):
        if name not in best:
            seconds, names = max((longest(it) for it in below[name]), default=(0.0, []))
            best[name] = seconds + sums.get(name, {}).get("proof", 0.0), names + [name]
        return best[name]

    return max(longest(name) for name in below)


def show(sums, whole, rest):
    print("| crate | " + " | ".join(KINDS) + " | sum |\n|---|" + "---|" * (len(KINDS) + 1))
    for name, by in sorted(sums.items(), key=lambda it: -sum(it[1].values())):
        print(f"| {name} | " + " | ".join(f"{by[kind]:.0f}" for kind in KINDS) + f" | {sum(by.values()):.0f} |")
    totals = [sum(by[kind] for by in sums.values()) for kind in KINDS]
    print("| **all** | " + " | ".join(f"{it:.0f}" for it in totals) + f" | {sum(totals):.0f} |\n")
    seconds, names = chain_of(sums)
    print(f"The longest chain of proofs: {len(names)} crates, {seconds / 60:.1f} minutes: {' '.join(names)}.\n")
    print(f"The prover: {sum(totals) / 60:.1f} minutes. `rt ci` as a whole: {whole / 60:.1f}{rest}.")


def used():
    it = resource.getrusage(resource.RUSAGE_CHILDREN)
    return it.ru_utime + it.ru_stime


def main():
    flags, names = [it for it in sys.argv[1:] if it == "--anew"], [it for it in sys.argv[1:] if not it.startswith("-")]
    with tempfile.TemporaryDirectory(prefix="mtpart-gate-") as room:
        subprocess.run(["git", "clone", "-q", TOP, f"{room}/copy"], check=True)
        sampler, before = Sampler(), used()
        sampler.start()
        status = subprocess.run(["rt", "ci", *flags, *names], cwd=f"{room}/copy", stdout=sys.stderr).returncode
        sampler.stop.set()
        sampler.join()
        whole, rest = used() - before, ""
        if not names and not status:
            status = subprocess.run(["tests/run"], cwd=f"{room}/copy", stdout=sys.stderr).returncode
            rest = f"; `tests/run`: {(used() - before - whole) / 60:.1f}"
        show(sampler.seconds(), whole, rest)
    return status


if __name__ == "__main__":
    sys.exit(main())
