#!/usr/bin/env python3
"""Measures the built program beside SQLite, LMDB and a mutex round ordered maps, on the same texts.

    bench/measure.py                       all workloads, seven times each
    bench/measure.py --only adds,finds --repeat 15 --callgrind
    bench/measure.py --program PATH        another build of the program

Each contender reads the same text, runs its blocks and writes a report. Before anything is measured, each of them is run once on each
text: at one worker the reports must be equal but for the stamps, and at more the program's own check must say yes of them. Then all run
in turn, again and again, so that what else the machine does meets them alike. A ratio is taken within one turn: the time of the program
with one worker over that of the contender, so above 1 the contender is faster. Nothing here is part of the gate.

It takes python3, gcc, rustc, libsqlite3-dev and liblmdb-dev, and for --callgrind valgrind (packages of Debian). What is missing is named
and left out.
"""
import argparse
import os
import platform
import random
import re
import resource
import shutil
import statistics
import subprocess
import sys
import tempfile
import time

here = os.path.dirname(os.path.abspath(__file__))

# As the script `cicada` does: where the system gives large pages on request alone, the C library asks for them, and what was let go of it
# uses again; in each contender.
os.environ.setdefault("GLIBC_TUNABLES", "glibc.malloc.hugetlb=1:glibc.malloc.mmap_threshold=1073741824:glibc.malloc.trim_threshold=1073741824")

top = os.path.dirname(here)


# The workloads: each a text, by a fixed seed.

def text(head, lanes):
    """A text of these head lines, and of lanes of blocks; a block is its kind and its commands."""
    lines = list(head)
    for blocks in lanes:
        lines.append("lane")
        for kind, commands in blocks:
            lines += [kind, *commands, "end"]
    return "\n".join(lines + ["done", ""])


def rows(count, value=1_000_000):
    return ["cicada 1", "table a"] + [f"row a {key} {value}" for key in range(1, count + 1)]


def dealt(blocks, lanes):
    """These blocks in so many lanes of nearly the same length."""
    return [blocks[lane::lanes] for lane in range(lanes)]


def load(draw):
    """8,192 rows and no block: reading, loading and printing alone."""
    return text(rows(8192), [])


def adds(draw):
    """8,192 rows; 8,192 blocks of 16 adds each, uniform, in 16 lanes."""
    return text(rows(8192), dealt([("txn", [f"add a {draw(8192)} {draw(99)}" for _ in range(16)]) for _ in range(8192)], 16))


def transfer(draw, accounts):
    source = draw(accounts)
    target = (source + draw(accounts - 1) - 1) % accounts + 1
    amount = draw(1000)
    return ("txn", [f"sub a {source} {amount}", f"add a {target} {amount}"])


def transfers(draw):
    """8,192 rows; 16,384 transfers of one amount each, uniform, in 16 lanes."""
    return text(rows(8192), dealt([transfer(draw, 8192) for _ in range(16384)], 16))


def contended(draw):
    """64 rows; 16,384 transfers in 4 lanes, of which some are refused."""
    return text(rows(64, 10_000), dealt([transfer(draw, 64) for _ in range(16384)], 4))


def gets(draw):
    """8,192 rows; 8,192 blocks of 16 gets each, half of them snapshots, in 16 lanes."""
    kinds = ["txn", "snap"]
    return text(rows(8192), dealt([(kinds[block // 16 % 2], [f"get a {draw(8192)}" for _ in range(16)]) for block in range(8192)], 16))


def scans(draw):
    """8,192 rows; 4,096 blocks of 2 scans of 16 rows each, half of them snapshots, in 16 lanes."""
    def block(number):
        lows = [draw(8192) for _ in range(2)]
        return (["txn", "snap"][number // 16 % 2], [f"scan a {low} {low + 99} 16" for low in lows])
    return text(rows(8192), dealt([block(number) for number in range(4096)], 16))


def inserts(draw):
    """16 rows; 1,020 blocks that insert 16 rows each, by keys that do not rise, in 16 lanes."""
    keys = [key * 2654435761 % 2**31 for key in range(1, 16321)]
    blocks = [("txn", [f"ins a {key} {draw(1000)}" for key in keys[at:at + 16]]) for at in range(0, 16320, 16)]
    return text(rows(16), dealt(blocks, 16))


def finds(draw):
    """4,096 rows of 3 columns with an index; 4,096 blocks of 2 finds of 16 rows and an add to the indexed column, in 16 lanes."""
    head = ["cicada 2", "table a 3", "index a 2"] + [f"row a {key} {key} {draw(10000)} 7" for key in range(1, 4097)]
    def block():
        lows = [draw(10000) for _ in range(2)]
        return ("txn", [f"find a 2 {low} {low + 999} 16" for low in lows] + [f"add a {draw(4096)} 2 {draw(99)}"])
    return text(head, dealt([block() for _ in range(4096)], 16))


def generated(draw):
    """The text that `--gen 7` makes: 64 rows, 4,000 transfers in 8 lanes."""
    state = 7
    def drawn():
        nonlocal state
        state = (state * 6364136223846793005 + 1442695040888963407) % 2**64
        return state >> 33
    def block():
        first, second, third = drawn(), drawn(), drawn()
        source = first % 64 + 1
        target = (source + second % 63) % 64 + 1
        amount = third % 1000 + 1
        return ("txn", [f"sub accounts {source} {amount}", f"add accounts {target} {amount}"])
    head = ["cicada 1", "table accounts"] + [f"row accounts {key} 1000000" for key in range(1, 65)]
    return text(head, [[block() for _ in range(500)] for _ in range(8)])


workloads = [load, adds, transfers, contended, gets, scans, inserts, finds, generated]


# The contenders.

def say(sentence):
    print(sentence, file=sys.stderr)


def compiled(folder, name, compiler, words, package):
    """The path of a rival that is compiled here, or none."""
    if not shutil.which(compiler):
        say(f"{name} is left out: there is no {compiler} (Debian: apt install {compiler}).")
        return None
    path = os.path.join(folder, name)
    done = subprocess.run([compiler, *words, "-o", path], cwd=here, capture_output=True, text=True)
    if done.returncode != 0:
        say(f"{name} is left out: it can't be compiled{package}: {done.stderr.strip().splitlines()[0]}")
        return None
    return path


def contenders(program, workers, folder):
    """Names and the words that run them; the program with one worker is the first."""
    them = {f"cicada {count}": [program, "--workers", str(count)] for count in workers}
    lone = {"cicada 1": [program, "--workers", "1"]}
    path = compiled(folder, "mutex", "rustc", ["--edition", "2021", "-C", "opt-level=3", "mutex.rs"], "")
    rivals = {f"mutex {count}": [path, str(count)] for count in workers} if path else {}
    for name, library in (("sqlite", "sqlite3"), ("lmdb", "lmdb")):
        path = compiled(folder, name, "gcc", ["-O2", f"{name}.c", f"-l{library}"], f" (Debian: apt install lib{library}-dev)")
        if path:
            rivals[name] = [path]
    return {**lone, **them, **rivals}


def run(words, path, output=subprocess.DEVNULL):
    """Wall time and processor time in milliseconds, peak memory in megabytes, of one run."""
    with open(path) as source:
        start = time.perf_counter()
        ran = subprocess.Popen(words, stdin=source, stdout=output)
        status, usage = os.wait4(ran.pid, 0)[1:]
        wall = time.perf_counter() - start
    ran.returncode = os.waitstatus_to_exitcode(status)
    if ran.returncode != 0:
        sys.exit(f"{' '.join(words)} ended with status {ran.returncode} on {path}")
    return 1000 * wall, 1000 * (usage.ru_utime + usage.ru_stime), usage.ru_maxrss / 1024


def without_stamps(report):
    return [re.sub(rb"^\d+ (?=\d+\.\d+ )", b"", line) for line in report.split(b"\n")]


def agree(them, path):
    """Ends the script where a contender's answers are not those of the program."""
    reports = {}
    for name, words in them.items():
        with open(path) as source:
            reports[name] = subprocess.run(words, stdin=source, capture_output=True, check=True).stdout
    first = without_stamps(reports["cicada 1"])
    source = open(path, "rb").read()
    for name, report in reports.items():
        if name in ("sqlite", "lmdb", "mutex 1") and without_stamps(report) != first:
            sys.exit(f"{name} answers otherwise than cicada on {path}")
        said = subprocess.run([them["cicada 1"][0], "--check"], input=source + report, capture_output=True).stdout
        if said != b"yes\n":
            sys.exit(f"the check of the report of {name} on {path} says {said.decode()}")


def prepare(workload, them, path):
    """Writes a text, and looks whether all answer alike."""
    draws = random.Random(29)
    with open(path, "w") as file:
        file.write(workload(lambda most: draws.randint(1, most)))
    agree(them, path)


def aside(work):
    """Does work in a process of its own, so that this one stays small: the system's peak of a run is never below that of its parent."""
    sys.stdout.flush()
    child = os.fork()
    if child == 0:
        try:
            work()
        except SystemExit as end:
            say(str(end))
            os._exit(1)
        sys.stdout.flush()
        os._exit(0)
    if os.waitpid(child, 0)[1] != 0:
        sys.exit(1)


def instructions(words, path):
    with open(path) as source:
        told = subprocess.run(["valgrind", "--tool=callgrind", "--callgrind-out-file=/dev/null", *words], stdin=source,
                              stdout=subprocess.DEVNULL, stderr=subprocess.PIPE, text=True).stderr
    return int(re.search(r"Collected : (\d+)", told)[1])


def without_blocks(source):
    """The same text without its lanes."""
    return source[:source.index("\nlane\n")] + "\ndone\n" if "\nlane\n" in source else None


def commands_of(source):
    return len(re.findall(r"^(?:get|put|ins|del|add|sub|scan|find) ", source, re.M))


# What is printed.

def spread(numbers):
    return f"{statistics.median(numbers):6.2f} ({min(numbers):.2f} to {max(numbers):.2f})"


def table(name, about, runs):
    print(f"\n{name}: {about}")
    print(f"  {'':10s} {'wall, ms':>9s} {'processor, ms':>14s} {'peak, MB':>9s}   times as fast as cicada 1, by wall time and by processor time")
    for contender, measured in runs.items():
        wall, cpu, peak = zip(*measured)
        by_wall = [one[0] / other[0] for one, other in zip(runs["cicada 1"], measured)]
        by_cpu = [one[1] / other[1] for one, other in zip(runs["cicada 1"], measured)]
        print(f"  {contender:10s} {statistics.median(wall):9.1f} {statistics.median(cpu):14.1f} {max(peak):9.0f}   {spread(by_wall)}   {spread(by_cpu)}")


def machine(program):
    model = re.search(r"model name\s*: (.*)", open("/proc/cpuinfo").read())
    version = open(os.path.join(top, "VERSION")).read().strip()
    print(f"{time.strftime('%Y-%m-%d %H:%M')}, {len(os.sched_getaffinity(0))} processors ({model[1] if model else platform.machine()}), {platform.system()} "
          f"{platform.release()}, load average {os.getloadavg()[0]:.2f}; cicada {version}: {program}")
    print(f"a peak of memory is never told below that of this script, {resource.getrusage(resource.RUSAGE_SELF).ru_maxrss / 1024:.0f} MB")


def versions(them):
    for name in ("sqlite", "lmdb"):
        if name in them:
            print(f"{name}: {subprocess.run(them[name] + ['--version'], capture_output=True, text=True).stdout.strip()}")
    for name in ("gcc", "rustc"):
        if shutil.which(name):
            print(subprocess.run([name, "--version"], capture_output=True, text=True).stdout.splitlines()[0])


def count(them, path, folder):
    """Instructions of one run of each contender on one thread; for a command, without those of the same text with no lanes."""
    source = open(path).read()
    bare = os.path.join(folder, "bare")
    rest = without_blocks(source)
    if rest:
        open(bare, "w").write(rest)
    for name, words in them.items():
        if name in ("cicada 1", "mutex 1", "sqlite", "lmdb"):
            all_ = instructions(words, path)
            line = f"  {name:10s} {all_ / 1e6:9.1f} million instructions"
            if rest:
                commands = commands_of(source)
                line += f", {all_ / commands:8.0f} a command, {(all_ - instructions(words, bare)) / commands:8.0f} of them of its blocks"
            print(line, flush=True)


def example(turns, callgrind):
    """The example of a caller of the engine, where it is built: 800 transfers by four threads. Most of its time is its start."""
    path = os.path.join(top, "crates/ledger_example/out/ledger_example")
    if not os.access(path, os.X_OK):
        say("The example of a caller is left out: `rt run` in crates/ledger_example proves and builds it.")
        return
    walls, cpus, _ = zip(*(run([path], os.devnull) for _ in range(turns)))
    line = f"\nledger_example: {spread(walls)} ms of wall time, {spread(cpus)} ms of processor time"
    print(line + (f", {instructions([path], os.devnull) / 800:.0f} instructions a transfer" if callgrind else ""))


def arguments():
    names = ", ".join(workload.__name__ for workload in workloads)
    words = argparse.ArgumentParser(description="Measures the built program beside SQLite, LMDB and a mutex round ordered maps.")
    words.add_argument("--program", default=os.path.join(top, "crates/cicada_cli/out/cicada_cli"), help="the built program")
    words.add_argument("--repeat", type=int, default=7, help="how many turns (7)")
    words.add_argument("--only", default="", help=f"which workloads, with commas between: {names}")
    words.add_argument("--workers", default="1,2,4", help="how many workers, with commas between (1,2,4)")
    words.add_argument("--callgrind", action="store_true", help="count instructions too")
    words.add_argument("--keep", help="a folder in which the texts are kept")
    return words.parse_args()


def main():
    asked = arguments()
    if not os.access(asked.program, os.X_OK):
        sys.exit(f"There is no program at {asked.program}: `./cicada < examples/first.txt` proves and builds it.")
    callgrind = asked.callgrind and shutil.which("valgrind")
    if asked.callgrind and not callgrind:
        say("Instructions are not counted: there is no valgrind (Debian: apt install valgrind).")
    wanted = [workload for workload in workloads if not asked.only or workload.__name__ in asked.only.split(",")]
    with tempfile.TemporaryDirectory() as folder:
        them = contenders(os.path.abspath(asked.program), [int(count) for count in asked.workers.split(",")], folder)
        machine(asked.program)
        versions(them)
        for workload in wanted:
            path = os.path.join(asked.keep or folder, workload.__name__ + ".txt")
            aside(lambda: prepare(workload, them, path))
            runs = {name: [] for name in them}
            for turn in range(asked.repeat):
                for name, words in them.items():
                    runs[name].append(run(words, path))
            table(workload.__name__, workload.__doc__, runs)
            if callgrind:
                aside(lambda: count(them, path, folder))
            sys.stdout.flush()
        if not asked.only:
            example(asked.repeat, callgrind)
        print(f"\nload average at the end {os.getloadavg()[0]:.2f}")


main()
