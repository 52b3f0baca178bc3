#!/bin/sh
# What a round trip costs over the ends of a lane, over the halves of a ring and over a ring in plain Rust: processor time and
# instructions, and in which functions the instructions are.
# Run it at the top of the repository: sh bench/lane.sh [TURNS]
# Instructions are counted by callgrind, where valgrind is installed.
#
# The proved program is built only where it is older than its sources.
set -e
mkdir -p bench/out
rustc -O --edition 2021 -o bench/out/plain_ring bench/plain_ring.rs
(cd crates/ring_bench && rt run >/dev/null 2>&1)
export MALLOC_TRIM_THRESHOLD_=1000000000
TURNS=${1:-7} exec python3 - <<'END'
import os, re, shutil, subprocess, tempfile

PLAIN, PROVED = "bench/out/plain_ring", "crates/ring_bench/out/ring_bench"
PROGRAMS = [
    ("plain Rust", PLAIN, []),
    ("halves", PROVED, ["halves"]),
    ("ends, queue 1", PROVED, ["1"]),
    ("ends, queue 0", PROVED, ["0"]),
]
SHOWN = 4   # how many functions of each program


def seconds(words):
    child = subprocess.Popen(words, stdout=subprocess.DEVNULL)
    _, status, used = os.wait4(child.pid, 0)
    child.returncode = status
    assert status == 0, (words, status)
    return used.ru_utime + used.ru_stime


def counted(words):
    """The instructions of a run: of each function, and in all."""
    with tempfile.TemporaryDirectory() as folder:
        out = os.path.join(folder, "out")
        subprocess.run(["valgrind", "--tool=callgrind", "--callgrind-out-file=" + out] + words, capture_output=True, check=True)
        text = subprocess.run(["callgrind_annotate", "--threshold=100", out], capture_output=True, text=True).stdout
    functions, whole = {}, 0
    for line in text.splitlines():
        found = re.match(r"\s*([\d,]+) \([ \d.]+%\)\s+(.*)", line)
        if not found:
            continue
        count, name = int(found[1].replace(",", "")), found[2]
        if name.startswith("PROGRAM TOTALS"):
            whole = count
        else:
            functions[re.sub(r" \[.*", "", name)] = count
    return functions, whole


for mode, size, rounds, trips in [("one", 256, 3_000_000, 1), ("each", 256, 12_000, 256)]:
    for name, program, over in PROGRAMS:
        few, many = [[program, mode, str(size), str(n)] + over for n in (rounds // 60, rounds // 30)]
        all_rounds = [program, mode, str(size), str(rounds)] + over
        least = min(seconds(all_rounds) for _ in range(int(os.environ["TURNS"]))) * 1e9 / (rounds * trips)
        print(f"{mode:5} {name:14} {least:6.1f} ns", end="")
        if not shutil.which("valgrind"):
            print()
            continue
        before, start = counted(few)
        after, end = counted(many)
        scale = (rounds // 30 - rounds // 60) * trips
        print(f" {(end - start) / scale:7.1f} instructions")
        grown = {name: (after[name] - before.get(name, 0)) / scale for name in after}
        for name, count in sorted(grown.items(), key=lambda item: -item[1])[:SHOWN]:
            if count >= 0.5:
                print(f"      {count:7.1f} {name}")
END
