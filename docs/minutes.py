#!/usr/bin/env python3
"""Makes a table of what a run of the gate took: for each crate its proof, the proof of its tests, and its must-fail edits.

Usage: docs/minutes.py record LOG [COMMAND..]    runs the command (`rt ci`), passes its output on, and writes LOG
       docs/minutes.py watch LOG PID             the same of an `rt ci` that runs already, by its process; ends with it
       docs/minutes.py table LOG [BEFORE]        prints the table of a LOG; with another, of an earlier run, beside it

A LOG has the lines of the run, and between them lines `cpu CRATE KIND SECONDS`: what the processors spent on it since the
last such line, by looking at the processes below the run every second. KIND is proof, tests, edits or program. A log
without them, as `rt ci` prints it, gives a table of what was done and what was kept, without minutes.
"""
import collections
import os
import re
import subprocess
import sys
import threading
import time

TICKS = os.sysconf("SC_CLK_TCK")
KINDS = ("proof", "tests", "edits", "program")


def processes():
    """Each process: its number to that of its parent, and the seconds that it and its ended children took."""
    found = {}
    for name in os.listdir("/proc"):
        if name.isdigit():
            try:
                with open("/proc/%s/stat" % name, encoding="latin-1") as stat:
                    fields = stat.read().rpartition(")")[2].split()
            except OSError:
                continue
            found[int(name)] = (int(fields[1]), sum(map(int, fields[11:13])) / TICKS)
    return found


def read_words(pid):
    try:
        with open("/proc/%d/cmdline" % pid, encoding="latin-1") as file:
            return file.read().split("\0"), os.readlink("/proc/%d/cwd" % pid)
    except OSError:
        return [], ""


def work_of(pid):
    """The crate that a process works on, and what it does for it; none where it is no check."""
    words, folder = read_words(pid)
    if "--crate-name" not in words:
        return None
    crate = words[words.index("--crate-name") + 1]
    if "must-fail" in folder or "must-fail" in " ".join(words) or "edit" in folder:
        return crate, "edits"
    if "--test" in words:
        return crate, "tests"
    return crate, "program" if "--crate-checked" in words else "proof"


class Watch:
    """Adds up what the processes below a run take, and writes it down."""

    def __init__(self, root, log):
        self.root, self.log, self.seen, self.works = root, log, {}, {}

    def look(self):
        now = processes()
        spent = collections.Counter()
        for pid, (_, seconds) in now.items():
            above = pid
            while above in now and above != self.root:
                above = now[above][0]
            if above != self.root:
                continue
            if pid not in self.works:
                self.works[pid] = work_of(pid)
            # a helper of a check, as a linker, counts for the check above it
            at = pid
            while at in now and self.works.get(at) is None and at != self.root:
                at = now[at][0]
            work = self.works.get(at)
            if work:
                spent[work] += seconds - self.seen.get(pid, 0)
            self.seen[pid] = seconds
        for (crate, kind), seconds in sorted(spent.items()):
            if seconds > 0.005:
                self.log.write("cpu %s %s %.2f\n" % (crate, kind, seconds))
        self.log.flush()


def record(path, command):
    begun = time.time()
    with open(path, "w", encoding="utf-8") as log:
        run = subprocess.Popen(command, stdout=subprocess.PIPE, stderr=subprocess.STDOUT, text=True, errors="replace")
        watch, ended = Watch(run.pid, log), threading.Event()

        def look():
            while not ended.wait(1):
                watch.look()

        looking = threading.Thread(target=look)
        looking.start()
        for line in run.stdout:
            sys.stdout.write(line)
            sys.stdout.flush()
            log.write(line)
        status = run.wait()
        ended.set()
        looking.join()
        log.write("seconds %d\n" % (time.time() - begun))
    return status


def watch_run(path, pid):
    begun = time.time()
    with open(path, "w", encoding="utf-8") as log:
        watch = Watch(pid, log)
        while os.path.isdir("/proc/%d" % pid):
            watch.look()
            time.sleep(1)
        log.write("seconds %d\n" % (time.time() - begun))
    return 0


def read_log(path):
    """What a log says: seconds by crate and kind, what was done by crate, and how long all of it took."""
    spent, done, whole, functions = collections.Counter(), collections.defaultdict(collections.Counter), 0, set()
    with open(path, encoding="utf-8", errors="replace") as log:
        for line in log:
            if cpu := re.match(r"cpu (\w+) (\w+) ([\d.]+)$", line):
                spent[cpu[1], cpu[2]] += float(cpu[3])
            elif seconds := re.match(r"seconds (\d+)$", line):
                whole = int(seconds[1])
            elif proved := re.match(r"rt: (\w+) proved$", line):
                done[proved[1]]["proof"] += 1
            elif kept := re.match(r"rt: (\w+) is kept", line):
                done[kept[1]]["kept"] += 1
            elif tests := re.match(r"rt: (\w+): its tests are proved$", line):
                done[tests[1]]["tests"] += 1
            elif edit := re.match(r"rt: must-fail (\w+)/", line):
                done[edit[1]]["edits"] += 1
            elif known := re.match(r"rt: (\w+): (\d+) of its \d+ must-fail edits were tried", line):
                done[known[1]]["kept edits"] += int(known[2])
            elif (fn := re.match(r"fn ((\w+)::.*?): proved", line)) and fn[1] not in functions:
                # what is proved for the tests too is counted once
                functions.add(fn[1])
                done[fn[2]]["functions"] += 1
    return spent, done, whole


def minutes(seconds):
    return "%.1f" % (seconds / 60) if seconds else ""


def table(path, before=None):
    spent, done, whole = read_log(path)
    old = read_log(before) if before else None
    names = sorted({name for name, _ in spent} | set(done), key=lambda name: (-sum(spent[name, kind] for kind in KINDS), name))
    heads = ["crate", "functions", *KINDS, "edits tried", "all"] + (["before"] if old else [])
    rows = []
    for name in names:
        all_of = sum(spent[name, kind] for kind in KINDS)
        row = [name + (" (kept)" if done[name]["kept"] else ""), str(done[name]["functions"] or "")]
        row += [minutes(spent[name, kind]) for kind in KINDS]
        row += [str(done[name]["edits"] - done[name]["kept edits"] or ""), minutes(all_of)]
        rows.append(row + ([minutes(sum(old[0][name, kind] for kind in KINDS))] if old else []))
    total = ["all", str(sum(done[name]["functions"] for name in names) or "")]
    total += [minutes(sum(spent[name, kind] for name in names)) for kind in KINDS]
    total += [str(sum(done[name]["edits"] - done[name]["kept edits"] for name in names) or ""), minutes(sum(spent.values()))]
    rows.append(total + ([minutes(sum(old[0].values()))] if old else []))
    print("Minutes of the processors%s.\n" % ("; by the clock %s%s" % (minutes(whole), ", before %s" % minutes(old[2]) if old else "") if whole else ""))
    print("| %s |\n|%s" % (" | ".join(heads), "---|" * len(heads)))
    for row in rows:
        print("| %s |" % " | ".join(row))
    return 0


def main():
    words = sys.argv[1:]
    if len(words) >= 2 and words[0] == "record":
        return record(words[1], words[2:] or ["rt", "ci"])
    if len(words) == 3 and words[0] == "watch" and words[2].isdigit():
        return watch_run(words[1], int(words[2]))
    if len(words) in (2, 3) and words[0] == "table":
        return table(*words[1:])
    sys.exit(__doc__)


sys.exit(main())
