"""Prints what the row store takes beside LevelDB and SQLite: rows.py ROWS LEVELDB SQLITE PORT FOLDER RUNS [SMALLER].

Each program reads the same line, makes the same rows, and answers how many of the rows that it was asked for it found.
A program that is missing is left out. With a last argument the counts of commits and look-ups are that many times
smaller, to try the scripts."""
import os
import shutil
import sys
from collections import namedtuple

from measure import Used, adopt_orphans, measure

# Commits to a new store: whether each is synced, how many there are, of how many rows each.
Commits = namedtuple("Commits", "disk commits changes")

# A program: its name, its file, the most commits that it is driven at, and whether it can do without syncs.
Program = namedtuple("Program", "name path most unsynced")

# The aims: the most times that a commit is to take of one of LevelDB, that a decade more of commits is to take, that a
# row of a large commit is to take of one of its own, and that a look-up is to take of one of LevelDB.
LEVELDB, SYNCED_LEVELDB, DECADE, SHARE, GET = 1.2, 1.6, 12, 0.05, 1.0

# After so many rows the row store is flushed, and its tables are merged where that is due; the others do so when they
# do.
EVERY = 2**16


class Bench:
    """The programs, a folder for their files, and how many runs of each there are."""

    def __init__(self, programs, folder, runs, smaller):
        self.programs = [program for program in programs if os.access(program.path, os.X_OK)]
        self.folder, self.runs, self.smaller = folder, runs, smaller

    def commits(self, disk, commits, changes):
        return Commits(disk, max(1, commits // self.smaller), changes)

    def driven(self, work):
        """The programs that do this work."""
        return [program for program in self.programs
                if work.commits <= program.most and (program.unsynced or work.disk == "synced")]

    def least(self, work, rounds=0):
        """The least that each program used of several runs of each in turn, by name."""
        programs = self.driven(work)
        found = {program.name: [] for program in programs}
        for _ in range(self.runs):
            for program in programs:
                found[program.name].append(self.used(program, work, rounds))
        return {name: Used(*map(min, zip(*taken))) for name, taken in found.items()}

    def used(self, program, work, rounds):
        """What one run used, in an empty folder."""
        folder = self.folder_of(program)
        shutil.rmtree(folder, ignore_errors=True)
        os.mkdir(folder)
        return self.run(program, f"{work.disk} {folder} fill {work.commits} {work.changes} {EVERY} {rounds}", rounds)

    def looked(self, program, rows, rounds):
        """What look-ups used in the store that the last run left, none of whose files the system holds in memory."""
        folder = self.folder_of(program)
        for name in os.listdir(folder):
            forget(os.path.join(folder, name))
        return self.run(program, f"unsynced {folder} find {rows} {rounds}", rounds)

    def folder_of(self, program):
        return os.path.join(self.folder, program.name)

    def run(self, program, line, rounds):
        """What one run of a line used; each of the rows that were asked for is to be found."""
        script, text = os.path.join(self.folder, "line"), os.path.join(self.folder, "text")
        with open(script, "w") as file:
            file.write(f"{line}\n")
        used = measure([program.path], script, text)
        with open(text) as file:
            said = file.read()
        if said != f"{line} = {rounds}\n":
            sys.exit(f"{program.name} says {said}")
        return used


def commits(bench):
    """Prints a table of commits."""
    few, many = bench.commits("unsynced", 10**5, 1), bench.commits("unsynced", 10**6, 1)
    batches = bench.commits("unsynced", 10**6 // 64, 64)
    synced, synced_batches = bench.commits("synced", 2000, 1), bench.commits("synced", 2000, 64)
    print("\nCommits: microseconds of one by the clock and of the processor, bytes written for a row, how many times"
          " its own that is, peak in MB; the ratios are of giga\n\n"
          "disk       commits  rows  program       clock  ratio  processor  ratio  bytes  times      MB")
    found = {work: bench.least(work) for work in (few, many, batches, synced, synced_batches)}
    for work, programs in found.items():
        giga, rows = programs["giga"], work.commits * work.changes
        for name, used in programs.items():
            clock, processor = per(used.clock, work.commits), per(used.processor, work.commits)
            print(f"{work.disk:<9} {work.commits:>8} {work.changes:>5}  {name:<8} {clock:>10.2f}"
                  f" {giga.clock / used.clock:>6.2f} {processor:>10.2f} {giga.processor / used.processor:>6.2f}"
                  f" {used.written / rows:>6.0f} {used.written / bytes_of(rows):>6.1f} {used.peak:>7.1f}")
    print()
    for work, aim, clock in (few, LEVELDB, False), (many, LEVELDB, False), (synced, SYNCED_LEVELDB, True):
        if "LevelDB" in found[work]:
            taken = [used.clock if clock else used.processor for used in map(found[work].get, ("giga", "LevelDB"))]
            said = "by the clock" if clock else "of the processor's"
            tell(f"{work.commits} commits, {work.disk}, of LevelDB's time {said}", taken[0] / taken[1], aim)
    taken = [found[work]["giga"].processor for work in (few, many)]
    tell(f"{few.commits} to {many.commits} commits", taken[1] / taken[0], DECADE)
    one = per(found[synced]["giga"].clock, synced.commits)
    row = per(found[synced_batches]["giga"].clock, synced_batches.commits * synced_batches.changes)
    tell(f"a row of {synced_batches.changes} in a commit, synced, of one of its own", row / one, SHARE)


def bytes_of(rows):
    """The bytes of so many keys and rows: directory, partition, reversed hash, name; directory, mode, size."""
    return sum(8 + 4 + 8 + len(f"f{number}") + 8 + 2 + 8 for number in range(rows))


def gets(bench):
    """Prints what look-ups take: what a run with them takes more than one without them."""
    work = bench.commits("unsynced", 10**6 // 64, 64)
    rounds, cold_rounds = 10**5 // bench.smaller, 2000 // bench.smaller
    rows = work.commits * work.changes
    print(f"\nLook-ups of one of {rows} rows, at random, in the process that made them: microseconds of the"
          " processor\n")
    idle, busy = bench.least(work), bench.least(work, rounds)
    found = {name: per(busy[name].processor - idle[name].processor, rounds) for name in busy}
    for name, taken in found.items():
        print(f"{name:<8} {taken:>7.2f}")
    print()
    if found.get("LevelDB", 0) > 0:
        tell("a look-up, of LevelDB's", found["giga"] / found["LevelDB"], GET)
    print(f"\nLook-ups of one of {rows} rows in a store that was just opened, and of which the system holds nothing in"
          " memory: microseconds by the clock\n")
    for program in bench.driven(work):
        bench.used(program, work, 0)
        opened = min(bench.looked(program, rows, 0).clock for _ in range(bench.runs))
        looked = min(bench.looked(program, rows, cold_rounds).clock for _ in range(bench.runs))
        print(f"{program.name:<8} {per(looked - opened, cold_rounds):>7.2f}, opened in {opened:.3f} seconds")


def forget(path):
    """Has the system write a file and let go of what it holds of it in memory."""
    file = os.open(path, os.O_RDONLY)
    os.fsync(file)
    os.posix_fadvise(file, 0, 0, os.POSIX_FADV_DONTNEED)
    os.close(file)


def per(seconds, count):
    return seconds / count * 10**6


def tell(what, times, aim):
    print(f"{what}: {times:.3f} times; aim at most {aim}, {'met' if times <= aim else 'MISSED'}")


def main():
    rows, leveldb, sqlite, port, folder, runs, *smaller = sys.argv[1:]
    adopt_orphans()
    # SQLite writes whole pages, so 10^6 commits of it would fill a disk; its port syncs each commit.
    programs = [Program("giga", rows, 10**6, True), Program("LevelDB", leveldb, 10**6, True),
                Program("SQLite", sqlite, 10**5, True), Program("port", port, 10**5, False)]
    bench = Bench(programs, folder, int(runs), int(smaller[0]) if smaller else 1)
    commits(bench)
    gets(bench)
    print(f"\nThe least of {runs} runs of each in turn, at load {os.getloadavg()[0]:.1f} on {os.cpu_count()}"
          " processors.")


main()
