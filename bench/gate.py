#!/usr/bin/env python3
"""Runs `rt ci` and prints what it took: for each crate the processor minutes of its proof, its tests and its edits.

    bench/gate.py [--table] [NAME..]        run at the top of the repository; NAMEs of crates as for `rt ci`

What `rt ci` prints goes to standard error as it comes. Every fifth of a second the processor times of the provers that
run are read from /proc, so the last moments of each are not counted. What earlier runs on the machine have passed is
not proved again and takes nothing: `--anew` among the names proves all. `--table` prints rows for docs/CONTRIBUTING.md.
The exit status is that of `rt ci`. It is no part of the tests.
"""
import os, subprocess, sys, time

KINDS = ("proof", "tests", "edits")
TICKS = os.sysconf("SC_CLK_TCK")


def words_of(pid):
    with open("/proc/%s/cmdline" % pid, "rb") as file:
        return file.read().decode(errors="replace").split("\0")[:-1]


def fields_of(pid):
    """What the system says of a process, from its state on."""
    with open("/proc/%s/stat" % pid, "rb") as file:
        return file.read().decode(errors="replace").rpartition(")")[2].split()


def time_of(pid):
    """The processor seconds of a process itself, without those of its children."""
    fields = fields_of(pid)
    return (int(fields[11]) + int(fields[12])) / TICKS


def is_below(pid, top):
    """Whether a process was started by another, or by one that it started."""
    while pid not in ("0", "1", top):
        pid = fields_of(pid)[1]
    return pid == top


def kind_of(pid, words):
    """What a prover works for. The edits of a crate, and what they begin with, are tried in folders of their own."""
    if os.path.basename(os.readlink("/proc/%s/cwd" % pid)).startswith("rt-edit-"):
        return "edits"
    return "tests" if "--test" in words else "proof"


def provers(top):
    """The provers that run below a process: process, crate, kind, and processor seconds so far."""
    for pid in filter(str.isdigit, os.listdir("/proc")):
        try:
            words = words_of(pid)
            if words and os.path.basename(words[0]) == "rattle" and "--crate-name" in words and is_below(pid, top):
                crate = words[words.index("--crate-name") + 1]
                yield pid, crate, kind_of(pid, words), time_of(pid)
        except (OSError, IndexError, ValueError):
            pass  # it ended meanwhile


def watched(command):
    """Runs the command and returns its status and the seconds of each prover, by process, crate and kind."""
    seconds = {}
    run = subprocess.Popen(command, stdin=subprocess.DEVNULL, stdout=sys.stderr)
    while run.poll() is None:
        for pid, crate, kind, spent in provers(str(run.pid)):
            seconds[pid, crate, kind] = spent
        time.sleep(0.2)
    return run.returncode, seconds


def main(words):
    as_table = "--table" in words
    begun = time.time()
    status, seconds = watched(["rt", "ci", *(word for word in words if word != "--table")])
    sums = {}
    for (_, crate, kind), spent in seconds.items():
        sums.setdefault(crate, dict.fromkeys(KINDS, 0.0))[kind] += spent / 60
    total = {kind: sum(row[kind] for row in sums.values()) for kind in KINDS}
    line = "| `%s` | %.1f | %.1f | %.1f | %.1f |" if as_table else "%-20s %7.1f %7.1f %7.1f %7.1f"
    print("| crate | proof | tests | edits | all |\n|---|--:|--:|--:|--:|" if as_table else
          "%-20s %7s %7s %7s %7s" % ("crate", *KINDS, "all"))
    for crate, row in sorted(sums.items(), key=lambda item: -sum(item[1].values())):
        print(line % (crate, *(row[kind] for kind in KINDS), sum(row.values())))
    print(line.replace("`", "") % ("all", *(total[kind] for kind in KINDS), sum(total.values())))
    print("processor minutes; %.0f minutes of the clock" % ((time.time() - begun) / 60))
    return status


sys.exit(main(sys.argv[1:]))
