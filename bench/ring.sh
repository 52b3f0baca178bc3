#!/bin/sh
# Times the proved ring beside the plain one, each several times in turn, and prints the median and the least time of each.
# Run it at the top of the repository: sh bench/ring.sh [TURNS]
#
# The proved program is built only where it is older than its sources: a proved crate has no build without its proofs, which
# take some minutes the first time.
set -e
mkdir -p bench/out
rustc -O --edition 2021 -o bench/out/plain_ring bench/plain_ring.rs
(cd crates/ring_bench && rt run >/dev/null 2>&1)
# Else the heap may shrink and grow again each round, which takes longer than the calls.
export MALLOC_TRIM_THRESHOLD_=1000000000
TURNS=${1:-9} python3 - <<'END'
import os, statistics, subprocess, time

PROVED = "crates/ring_bench/out/ring_bench"
PLAIN = "bench/out/plain_ring"
CORES = sorted(os.sched_getaffinity(0))[-2:]


def pin(pid):
    """Gives each thread a processor of its own. A thread that is not there yet is pinned when it comes."""
    pinned = set()
    until = time.perf_counter() + 0.05
    while len(pinned) < 2 and time.perf_counter() < until:
        try:
            threads = os.listdir(f"/proc/{pid}/task")
        except FileNotFoundError:
            return
        for thread in sorted(map(int, threads)):
            if thread not in pinned and len(pinned) < 2:
                try:
                    os.sched_setaffinity(thread, {CORES[len(pinned) % len(CORES)]})
                except ProcessLookupError:
                    return
                pinned.add(thread)


def seconds(program, words, threads):
    """The processor's time of a program with one thread, which other programs disturb less; else the time that passed."""
    start = time.perf_counter()
    child = subprocess.Popen([program] + words, stdout=subprocess.DEVNULL)
    if threads == 2:
        pin(child.pid)
    else:
        os.sched_setaffinity(child.pid, {CORES[-1]})
    _, status, used = os.wait4(child.pid, 0)
    child.returncode = status
    assert status == 0, (program, words, status)
    return time.perf_counter() - start if threads == 2 else used.ru_utime + used.ru_stime


# mode, size, rounds, how many round trips a round has, and the threads
for mode, size, rounds, trips, threads in [
    ("one", 256, 5_000_000, 1, 1),
    ("order", 256, 10_000, 256, 1),
    ("reverse", 256, 10_000, 256, 1),
    ("each", 256, 10_000, 256, 1),
    ("order", 2, 1_000_000, 2, 1),
    ("reverse", 2, 1_000_000, 2, 1),
    ("two", 256, 2_000_000, 1, 2),
    ("two", 2, 2_000_000, 1, 2),
    ("ping", 256, 1_000_000, 1, 2),
]:
    words = [mode, str(size), str(rounds)]
    proved, plain = [], []
    for _ in range(int(os.environ["TURNS"])):
        plain.append(seconds(PLAIN, words, threads))
        proved.append(seconds(PROVED, words + ["halves"], threads))
    scale = 1e9 / (rounds * trips)
    a, b = [statistics.median(times) * scale for times in (proved, plain)]
    c, d = [min(times) * scale for times in (proved, plain)]
    print(
        f"{mode:8} {size:4}: proved {a:6.1f} ns (least {c:6.1f}), plain {b:6.1f} ns (least {d:6.1f}) a round trip,"
        f" ratio {a / b:.2f} ({c / d:.2f})"
    )
END
