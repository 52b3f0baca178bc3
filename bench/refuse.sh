#!/bin/sh
# Runs each form of the program once for each allocation, read and write that it makes, lets that one fail, and stops at the first run
# that ends otherwise than it must:
#   an allocation: status 0 with the whole output, or 6 with nothing written;
#   a read: status 4 with nothing written; a write: status 5 with what the writes before it wrote.
# It prints how many calls of each sort a form makes. bench/refuse.c stands between the program and the C library for it.
# On threads the order of calls is another at each run, so there one of the runs may find its call already made.
# Run it at the top of the repository, where crates/mcrun is built: sh bench/refuse.sh [PROGRAM]
# Without the proved program, `rt try --fail-alloc 1.. -- WORDS` and `rt try --fail-io 1.. -- WORDS` in crates/mcrun let each call fail
# that the unproved one makes, and print the runs that fault, hang, or end with the same status and other output.
set -e
folder=$(mktemp -d)
trap 'rm -rf "$folder"' EXIT
"${CC:-cc}" -O2 -shared -fPIC -o "$folder/refuse.so" bench/refuse.c
python3 - "$folder" "${1:-crates/mcrun/out/mcrun}" <<'END'
import os, subprocess, sys

FOLDER, PROGRAM = sys.argv[1:]
COUNTS = os.path.join(FOLDER, "counts")
SERIAL, THREADS = b"mcapi-report 1 serial\n", b"mcapi-report 1 threads\n"

SHORT_WAITS = b"""domain 0 nodes 1 pool 2
domain 1 nodes 1 pool 2
link 0 1 size 4
0.0 create 1
0.0 far = lookup 1:0:7
0.0 wait far 1
1.0 create 7
0.0 wait far 10
1.0 first = msg_recv_i 7 488
1.0 second = msg_recv_i 7 488
0.0 msg_send 1 1:0:7 0 6869
1.0 wait_any second,first 10
1.0 wait second 0
"""

def read(name):
    if name is None:
        return b""
    if name == "short waits":
        return SHORT_WAITS
    with open(os.path.join("examples", name), "rb") as file:
        return file.read()

FORMS = [
    (["run", "--serial"], "two_endpoints.scenario"),
    (["run", "--serial"], "two_domains.scenario"),
    (["run", "--serial"], "eight_domains.scenario"),
    (["run", "--serial"], "channels.scenario"),
    (["run", "--serial"], "waits.scenario"),
    (["run"], "short waits"),           # a domain whose peer is out of memory waits to its limit
    (["check"], "channels.scenario"),   # a report of its serial run
    (["frame"], "message.hex"),
    (["ring"], "ring.image"),
    (["load", "3"], None),
]

def run(words, given, **given_to_it):
    env = {"LD_PRELOAD": os.path.join(FOLDER, "refuse.so"), **{f"REFUSE_{name}": str(value) for name, value in given_to_it.items()}}
    done = subprocess.run([PROGRAM, *words], input=given, stdout=subprocess.PIPE, stderr=subprocess.PIPE, env=env, timeout=60)
    return done.returncode, done.stdout

def said(words, name):
    return " ".join(words) + (f" < {'' if name == 'short waits' else 'examples/'}{name}" if name else "")

def counts():
    with open(COUNTS) as file:
        return [int(n) for n in file.read().split()]

def is_whole(words, written, whole):
    if words != ["run"]:
        return written == whole
    return written.startswith(THREADS) and written.endswith(b"\nend\n")

def is_front(words, written, whole):
    if words != ["run"]:
        return whole.startswith(written) and written != whole
    return (written.startswith(THREADS) or THREADS.startswith(written)) and not written.endswith(b"\nend\n")

def assert_that(holds, words, name, what, status):
    if not holds:
        sys.exit(f"{said(words, name)}: status {status} where {what} fails")

def input_of(words, name):
    if words == ["check"]:
        return subprocess.run([PROGRAM, "run", "--serial"], input=read(name), stdout=subprocess.PIPE, check=True).stdout
    return read(name)

for words, name in FORMS:
    given = input_of(words, name)
    status, whole = run(words, given, COUNTS=COUNTS)
    assert_that(status == 0, words, name, "nothing", status)
    allocations, reads, writes = counts()
    refused = 0
    for k in range(1, allocations + 1):
        status, written = run(words, given, ALLOC=k)
        assert_that((status == 0 and is_whole(words, written, whole)) or (status == 6 and not written), words, name, f"allocation {k}", status)
        refused += status == 6
    for k in range(1, reads + 1):
        status, written = run(words, given, READ=k)
        assert_that(status == 4 and not written, words, name, f"read {k}", status)
    for k in range(1, writes + 1):
        status, written = run(words, given, WRITE=k)
        assert_that(status == 5 and is_front(words, written, whole), words, name, f"write {k}", status)
    print(f"{said(words, name)}: {allocations} allocations, {refused} of which answer 6 where they fail; {reads} reads; {writes} writes", flush=True)
END
