"""Prints what the program takes beside others that do the same: compare.py PROGRAM PLAIN PEER PARTS FOLDER RUNS."""
import filecmp
import os
import sys
from collections import namedtuple

import scripts
from measure import adopt_orphans, measure

# How many calls a script has. A run has at most 2^20 events and a call is three, so 10^6 calls are past the limit.
SIZES = (10**4, 10**5, 3 * 10**5)

# The most runs of the largest scripts, since they are long.
LONG_RUNS = 5

# The aims: at most so many times the time and the memory of the peer, and at most so many times the time for ten times
# as many calls.
PEER, DECADE = 1.5, 12

# The aim for a part: at the greatest size a round takes at most so many times the time, by the size if it goes by it.
STEADY = 2

# A work of `bench_parts`: its name, its sizes, how many rounds there are (of a round that goes by the size, how many
# times that size), whether a round goes by the size, and what it is to show.
Work = namedtuple("Work", "name sizes rounds by_size shows")
WORKS = (
    Work("sweep", (10**3, 10**4, 10**5), 2 * 10**5, False, "a sweep costs what ended and not what is held"),
    Work("answer", (256, 2560, 25600), 4 * 10**5, False, "a look-up costs the same in any cache and takes no memory"),
    Work("half", (10**3, 10**4, 10**5), 2 * 10**6, True, "a half is walked once"),
    Work("beside", (10**3, 10**4, 10**5), 2000, False, "rows of other partitions cost the walk of a half nothing"),
    Work("tree", (256, 1024, 4096), 10**5, True, "a tree is read in time linear in its text"))

# A program's name, its command, what makes its script, and what is said of its text beside that of the first program.
Program = namedtuple("Program", "name words lines verdict")


def write_script(lines, size, folder):
    """Writes a script to a file of its own, and answers where it is."""
    path = os.path.join(folder, f"{lines.__name__}-{size}")
    with open(path, "w") as file:
        file.writelines(lines(size))
    return path


def least(programs, runs, folder):
    """The least that each program took of several runs of each in turn, and what is said of its text, by size and name.
    The sizes come in turn too, so that a time at which the machine is busy falls on all of them."""
    scripts_of = {(lines, size): write_script(lines, size, folder)
                  for lines in {program.lines for program in programs} for size in SIZES}
    texts = {program.name: os.path.join(folder, program.name) for program in programs}
    found = {(size, program.name): ([float("inf")] * 2, "") for size in SIZES for program in programs}
    for turn in range(runs):
        for size in SIZES if turn < LONG_RUNS else SIZES[:-1]:
            for program in programs:
                took = measure(program.words, scripts_of[program.lines, size], texts[program.name])
                took = took.processor, took.peak
                least_so_far = [min(pair) for pair in zip(took, found[size, program.name][0])]
                said = program.verdict(texts[programs[0].name], texts[program.name], size)
                found[size, program.name] = least_so_far, said
    return found


def table(title, programs, runs, folder):
    """Prints the first of the programs beside each other one, and answers the figures by size and name."""
    found, (first, *others) = least(programs, runs, folder), programs
    print(f"\n{title}\n\n   calls  beside       seconds  theirs  ratio        MB  theirs  ratio")
    for size in SIZES:
        (seconds, peak), _ = found[size, first.name]
        if not others:
            print(f"{size:>8}  {'nothing':<10} {seconds:>9.3f} {'':>7} {'':>6} {peak:>9.1f}")
        for other in others:
            (theirs, their_peak), said = found[size, other.name]
            print(f"{size:>8}  {other.name:<10} {seconds:>9.3f} {theirs:>7.3f} {seconds / theirs:>6.2f}"
                  f" {peak:>9.1f} {their_peak:>7.1f} {peak / their_peak:>6.2f}  {said}")
    print(f"\nThe least of {runs} runs of each, of {min(runs, LONG_RUNS)} with {SIZES[-1]} calls, at load "
          f"{os.getloadavg()[0]:.1f} on {os.cpu_count()} processors.\n"
          "Growth of the time, and by the ratio of the sizes:")
    for small, large in zip(SIZES, SIZES[1:]):
        grown = {program.name: found[large, program.name][0][0] / found[small, program.name][0][0]
                 for program in programs}
        listed = ", ".join(f"{name} {times:.2f} ({times * small / large:.2f})" for name, times in grown.items())
        aim = DECADE / 10 * large / small
        print(f"{small} to {large}: {listed}; aim of {first.name} at most {aim:.1f}, {met(grown[first.name] <= aim)}")
    return found


def works(parts, runs, folder):
    """Prints what a round of each work takes at its sizes: what the rounds take is what a run with them takes more than
    one without them, so what it costs to make the size is left out."""
    print("\nParts of a server and of a client: a round of work at a size, whose making is left out\n\n"
          "work       size   rounds  microseconds  MB more")
    for work in WORKS:
        costs = []
        for size in work.sizes:
            rounds = work.rounds // size if work.by_size else work.rounds
            idle, peak_before = least_of_work(parts, f"{work.name} {size} 0", runs, folder)
            seconds, peak = least_of_work(parts, f"{work.name} {size} {rounds}", runs, folder)
            costs.append((seconds - idle) / rounds / (size if work.by_size else 1))
            print(f"{work.name:<7} {size:>7} {rounds:>8} {(seconds - idle) / rounds * 10**6:>13.2f}"
                  f" {max(peak - peak_before, 0):>8.1f}")
        grown, by_size = costs[-1] / costs[0], ", by the size" if work.by_size else ""
        print(f"{work.shows}: {grown:.2f} times{by_size}; aim at most {STEADY}, {met(grown <= STEADY)}")
    print(f"\nThe least of {runs} runs of each, at load {os.getloadavg()[0]:.1f}.")


def least_of_work(parts, line, runs, folder):
    """The least time and memory that `bench_parts` took of several runs for a line."""
    script, text = os.path.join(folder, "work"), os.path.join(folder, "count")
    with open(script, "w") as file:
        file.write(f"{line}\n")
    found = [measure([parts], script, text) for _ in range(runs)]
    return min(took.processor for took in found), min(took.peak for took in found)


def met(is_met):
    return "met" if is_met else "MISSED"


def no_verdict(_ours, _theirs, _size):
    return ""


def same_text(ours, theirs, _size):
    return "same text" if filecmp.cmp(ours, theirs, shallow=False) else "TEXTS DIFFER"


def all_rows(_ours, theirs, size):
    with open(theirs) as file:
        return "all rows there" if file.read() == f"{size}\n" else "ROWS ARE LACKING"


def main():
    program, plain, peer, parts, folder, runs = sys.argv[1:]
    adopt_orphans()
    # SQLite is driven by its own command line, which reads each insert as SQL and keeps table and journal in memory.
    table("Creates through the log: distinct names, one client and one server, at most 8000 names a directory", [
        Program("giga", [program, "solo"], scripts.creates, no_verdict),
        Program("plain Rust", [plain, "solo"], scripts.creates, same_text),
        Program("SQLite", ["sqlite3", ":memory:"], scripts.inserts, all_rows)], int(runs), folder)
    words = ["solo", "--servers", "8", "--clients", "8"]
    programs = [Program("giga", [program, *words], scripts.mixed, no_verdict)]
    if os.access(peer, os.X_OK):
        programs.append(Program("giga-peer", [peer, *words, "--lease", "0"], scripts.mixed, same_text))
    else:
        print(f"\n{peer} is missing, so the next table has nothing beside the program.")
    found = table("Many clients and servers: create, lookup, setattr, remove by 8 clients over 8 servers, each settled",
                  programs, int(runs), folder)
    for what, place in (("time", 0), ("memory", 1)) if len(programs) > 1 else ():
        most = max(found[size, "giga"][0][place] / found[size, "giga-peer"][0][place] for size in SIZES)
        print(f"At most {most:.2f} times the {what} of giga-peer; aim at most {PEER}, {met(most <= PEER)}")
    works(parts, int(runs), folder)


main()
