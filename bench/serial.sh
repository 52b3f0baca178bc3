#!/bin/sh
# Times `mcrun run --serial` on five kinds of scenario, and counts its instructions, as the table of docs/SPEED.md.
# Run it at the top of the repository, where crates/mcrun is built: sh bench/serial.sh
# With a second program that writes the same bytes, the times are also compared with its times: sh bench/serial.sh OTHER
# Instructions are counted by callgrind, where valgrind is installed.
set -e
exec python3 - crates/mcrun/out/mcrun "$@" <<'END'
import re, shutil, subprocess, sys, tempfile, time

PROGRAM, OTHERS = sys.argv[1], sys.argv[2:]
TIMED, COUNTED = 1, 8       # the whole of a kind is timed, and an eighth of it is counted

def text(lines):
    return ("\n".join(lines) + "\n").encode()

# so many bytes of the same pair of lines
def pairs(head, pair, size):
    room = size - len(text(head))
    return text(head + pair * (room // len(text(pair))))

def one(size, content):
    return pairs(["domain 0 nodes 1 pool 256", "0.0 create 1", "0.0 create 2"],
                 ["0.0 msg_send 1 0:0:2 1 " + "ab" * content, "0.0 msg_recv 2 488"], size)

def linked(size):
    return pairs(["domain 0 nodes 1 pool 2", "domain 1 nodes 1 pool 2", "link 0 1 size 64", "0.0 create 1", "1.0 create 2",
                  "0.0 turn", "1.0 turn", "0.0 turn", "1.0 turn"],
                 ["0.0 msg_send 1 1:0:2 1 " + "ab" * 64, "1.0 msg_recv 2 488"], size)

EIGHT = [f"domain {d} nodes 1 pool 2" for d in range(8)] + [f"link {a} {b} size 16" for a in range(8) for b in range(a + 1, 8)]

def turns(count):
    return text(EIGHT + [f"{n % 8}.0 turn" for n in range(count)])

def tries(count):
    return text(EIGHT + ["0.0 create 1", "0.0 r = msg_recv_i 1 488", f"0.0 try {count} test r"])

# each kind by its part of the whole size, with how many units of which sort that is
KINDS = [
    ("one domain, messages of 64 bytes", lambda part: (one(8_000_000 // part, 64), 8_000_000 // part, "byte")),
    ("one domain, messages of 488 bytes", lambda part: (one(8_000_000 // part, 488), 8_000_000 // part, "byte")),
    ("two linked domains, messages of 64 bytes", lambda part: (linked(8_000_000 // part), 8_000_000 // part, "byte")),
    ("eight linked domains, idle turns", lambda part: (turns(200_000 // part), 200_000 // part, "turn")),
    ("eight linked domains, a line that tries again", lambda part: (tries(60_000 // part), 8 * 60_000 // part, "turn")),
]

def run(program, given):
    with tempfile.TemporaryFile() as file:
        file.write(given)
        file.seek(0)
        start = time.perf_counter()
        done = subprocess.run([program, "run", "--serial"], stdin=file, capture_output=True, check=True)
        return time.perf_counter() - start, done.stdout

def instructions(program, given):
    if not shutil.which("valgrind"):
        return None
    with tempfile.TemporaryFile() as file:
        file.write(given)
        file.seek(0)
        command = ["valgrind", "--tool=callgrind", "--callgrind-out-file=/dev/null", program, "run", "--serial"]
        done = subprocess.run(command, stdin=file, stdout=subprocess.DEVNULL, stderr=subprocess.PIPE)
        told = re.search(rb"Collected : (\d+)", done.stderr)
        return int(told.group(1)) if told and done.returncode == 0 else None

# the least of seven times, each program's in turn
def times(given):
    least, first = {}, None
    for _ in range(7):
        for program in [PROGRAM] + OTHERS:
            took, written = run(program, given)
            least[program] = min(took, least.get(program, took))
            first = first or written
            if written != first:
                sys.exit(f"{program} writes other bytes")
    return least

print("| scenario | seconds | instructions |" + " beside |" * len(OTHERS))
print("|---|---|---|" + "---|" * len(OTHERS))
for name, kind in KINDS:
    least = times(kind(TIMED)[0])
    given, units, unit = kind(COUNTED)
    count = instructions(PROGRAM, given)
    told = f"{count / units:.0f} a {unit}" if count else "not counted"
    ratios = "".join(f" {least[PROGRAM] / least[other]:.2f} |" for other in OTHERS)
    print(f"| {name} | {least[PROGRAM]:.2f} | {told} |{ratios}")
END
