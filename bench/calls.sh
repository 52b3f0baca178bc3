#!/bin/sh
# Has clients make numbered calls with `mcrun calls`, and stops at the first output in which not all of them were carried out and got, or whose report
# `check` does not find right. It prints the calls a second of one client and of seven together, by the time of the whole program, for requests that are
# sent once and for such that are sent four times.
# Run it at the top of the repository, where crates/mcrun is built: sh bench/calls.sh [CALLS [RUNS]]
# Without numbers CALLS, of all clients together, is 7,000, and RUNS, of which the fastest counts, is 3.
# MCRUN=PROGRAM names another program than the one that is built.
set -e
exec python3 - "${MCRUN-crates/mcrun/out/mcrun}" "$@" <<'END'
import subprocess, sys, time

PROGRAM = sys.argv[1]
CALLS, RUNS = [int(n) for n in sys.argv[2:] + ["7000", "3"][len(sys.argv) - 2:]]

# a whole run: its seconds
def run(clients, repeat):
    head = f"calls {clients} size 256 repeat {repeat}\n"
    given = (head + "".join(f"{k % clients + 1} {k % 16} 1\n" for k in range(CALLS))).encode()
    start = time.perf_counter()
    done = subprocess.run([PROGRAM, "calls"], input=given, stdout=subprocess.PIPE)
    took = time.perf_counter() - start
    cut = done.stdout.find(f"\nend\ncalls {clients}\n".encode()) + 5
    report, lines = done.stdout[:cut], done.stdout[cut:].split(b"\n")
    counts = [sum(line.startswith(front) for line in lines) for front in (b"carried ", b"got ")]
    if done.returncode or counts != [CALLS, CALLS]:
        sys.exit(f"{head}status {done.returncode}, carried out and got: {counts}")
    verdict = subprocess.run([PROGRAM, "check"], input=report, stdout=subprocess.PIPE)
    if verdict.returncode or verdict.stdout != b"right\n":
        sys.exit(f"{head}its report is {verdict.stdout.decode()}")
    return took

print("| clients | sends of each request | calls a second |\n|---|---|---|")
for clients in (1, 7):
    for repeat in (1, 4):
        least = min(run(clients, repeat) for _ in range(RUNS))
        print(f"| {clients} | {repeat} | {CALLS / least:.0f} |", flush=True)
END
