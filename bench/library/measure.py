#!/usr/bin/env python3
"""Measures the library beside LMDB, SQLite in memory and a map behind a lock, over the same transactions.

    bench/library/measure.py DIR                     DIR as `./cicada --prove --library DIR` has laid it down
    bench/library/measure.py DIR --turns 7 --threads 1,2,4

All run in turn, again and again, so that what else the machine does meets them alike; a ratio is taken within one turn, and of these the median is printed
with their range: above 1 the library is faster. With one thread all have to read the same, but for the workload of reads, where a snapshot may be older
than the last transfer. It takes a C++ compiler; stores whose headers are missing are left out, by name. Nothing here is part of the gate.
"""
import argparse
import os
import statistics
import subprocess
import sys
import tempfile

HERE = os.path.dirname(os.path.abspath(__file__))
WORKLOADS = ["transfers-small", "transfers", "adds", "reads-small", "reads", "scans", "churn"]
RIVALS = {"lmdb": ("lmdb.h", "-llmdb"), "sqlite": ("sqlite3.h", "-lsqlite3"), "map": (None, None)}
# So long, in seconds, one run of the library is to take with one thread.
RUN = 0.2

# As the script `cicada` does: where the system gives large pages on request alone, the C library asks for them; in each contender.
os.environ.setdefault("GLIBC_TUNABLES", "glibc.malloc.hugetlb=1:glibc.malloc.mmap_threshold=1073741824:glibc.malloc.trim_threshold=1073741824")


def has(header):
    words = ["c++", "-E", "-x", "c++", "-include", header, "/dev/null"]
    return header is None or subprocess.run(words, capture_output=True, check=False).returncode == 0


def build(library, program):
    rivals = [it for it, (header, _) in RIVALS.items() if has(header)]
    for it in RIVALS:
        if it not in rivals:
            print(f"left out, for want of {RIVALS[it][0]}: {it}")
    words = ["c++", "-std=c++17", "-O2", f"-I{library}/include", f"{HERE}/bench.cpp", f"{library}/lib/libcicada.a", "-pthread"]
    subprocess.run([*words, *[RIVALS[it][1] for it in rivals if RIVALS[it][1]], "-o", program], check=True)
    return rivals


def run(program, store, workload, threads, count):
    ran = subprocess.run([program, store, workload, str(threads), str(count)], capture_output=True, text=True, check=True, timeout=300)
    words = ran.stdout.split()
    return float(words[3]), float(words[4]), words[5]


def spread(values):
    return f"{statistics.median(values):.2f} ({min(values):.2f} to {max(values):.2f})"


def main():
    parser = argparse.ArgumentParser()
    parser.add_argument("library")
    parser.add_argument("--turns", type=int, default=7)
    parser.add_argument("--threads", default="1,2,4")
    parser.add_argument("--only", default="")
    words = parser.parse_args()
    threads = [int(it) for it in words.threads.split(",")]
    workloads = [it for it in WORKLOADS if not words.only or it in words.only.split(",")]
    with tempfile.TemporaryDirectory() as folder:
        program = f"{folder}/bench"
        rivals = build(os.path.abspath(words.library), program)
        counts, told = {}, {}
        for workload in workloads:
            counts[workload] = max(2000, int(run(program, "library", workload, 1, 2000)[0] * RUN) // 64 * 64)
            sums = {store: run(program, store, workload, 1, counts[workload])[2] for store in ["library", *rivals]}
            # (a snapshot of the library may be older than the last transfer)
            if len({*sums.values()}) != 1 and not workload.startswith("reads"):
                print(f"{workload}: not all read the same: {sums}")
                return 1
        for _ in range(words.turns):
            for workload in workloads:
                for n in threads:
                    for store in ["library", *rivals]:
                        told.setdefault((workload, n, store), []).append(run(program, store, workload, n, counts[workload] * min(n, 2)))
    print("| workload | threads | a second | refused per 1,000 | " + " | ".join(f"beside {it}" for it in rivals) + " |")
    print("|---|---|---|---|" + "---|" * len(rivals))
    for workload in workloads:
        for n in threads:
            own = told[workload, n, "library"]
            ratios = [spread([a[0] / b[0] for a, b in zip(own, told[workload, n, it])]) for it in rivals]
            speed, refused = (statistics.median(it[i] for it in own) for i in (0, 1))
            print(f"| {workload} | {n} | {speed:,.0f} | {1000 * refused:.1f} | " + " | ".join(ratios) + " |")
    return 0


sys.exit(main())
