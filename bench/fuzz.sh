#!/bin/sh
# Feeds mutated scenarios, reports, frames, images of rings, relays and numbered calls to the program for SECONDS, and stops at the first input with which it
#   ends with another status than its form has: 0 or 3 (a scenario, a relay or numbered calls), 0 or 1 (a report, a frame or an image);
#   writes what does not fit the status: each report is whole and its sums are right, each other answer is one line;
#   runs for more than 10 seconds, or allocates more than 256 MiB.
# It prints how many inputs were run, how many a second, and how many of each status. The input that stopped it stays in a file.
# Run it at the top of the repository, where crates/mcrun is built: sh bench/fuzz.sh [SECONDS [SEED [PROGRAM]]]
# Without numbers SECONDS is 60 and SEED 1. The same seed makes the same inputs.
set -e
exec python3 - "$@" <<'END'
import os, random, re, resource, subprocess, sys, tempfile, time

SECONDS, SEED, PROGRAM = [*sys.argv[1:], *["60", "1", "crates/mcrun/out/mcrun"][len(sys.argv) - 1:]][:3]
SECONDS, SEED = float(SECONDS), int(SEED)
MOST_SECONDS = 10           # of one run
MOST_MEMORY = 256 << 20     # of one run, but for its stacks and the program itself
chance = random.Random(SEED)

# ---- what is mutated

HEADER = "000400000004000000000000"
FRAMES = [
    "00",
    HEADER + "01000000",
    HEADER + "00000000",
    HEADER + "08000000" + "0001010000000000",
    HEADER + "08000000" + "4d09010000000000",
    HEADER + "08000000" + "4d014d0000000000",
    HEADER + "08000000" + "4d01010400000000",
    HEADER + "08000000" + "4d01020000000000",
    HEADER + "09000000" + "4d0108020100000000",
    HEADER + "0a000000" + "4d01010100000000" + "6869",
    HEADER + "08000000" + "4d01020001000000",
    HEADER + "08000000" + "4d01030001000000",
    "000400003500000000000000" + "27000000" + "00" * 39,
    "000400003500000000000000" + "28000000" + "6d636170693a303a303a31" + "00" * 21 + "0004000000000000",
    "000400003500000000000000" + "28000000" + "61" + "00" * 31 + "0004000002000000",
]

def read(name):
    with open(os.path.join("examples", name), "rb") as file:
        return file.read()

def of_kind(end):
    return [read(name) for name in sorted(os.listdir("examples")) if name.endswith(end)]

BOARD = b"domain 0 nodes 2 pool 2\ndomain 1 nodes 1 pool 3\ndomain 2 nodes 1 pool 1\nlink 0 1 size 2\nlink 2 0 size 4\n"
RAW = BOARD + "".join(f"{d}.0 raw {p} {f}\n{p}.0 turn\n" for d, p in [(0, 1), (1, 0), (0, 0), (2, 0), (0, 5)] for f in FRAMES).encode()
LINES = sorted({line for text in [*of_kind(".scenario"), RAW] for line in text.split(b"\n") if line and not line.startswith(b"#")})

def reports(scenarios):
    for words in (["run", "--serial"], ["run"]):
        for scenario in scenarios:
            yield subprocess.run([PROGRAM, *words], input=scenario, stdout=subprocess.PIPE, check=True).stdout

KINDS = [
    (["run", "--serial"], [*of_kind(".scenario"), RAW], {0, 3}),
    (["check"], [*reports(of_kind(".scenario"))], {0, 1}),
    (["frame"], [*of_kind(".hex"), *(f.encode() for f in FRAMES)], {0, 1}),
    (["ring"], of_kind(".image"), {0, 1}),
    (["relay"], of_kind(".relay"), {0, 3}),
    (["calls"], of_kind(".calls"), {0, 3}),
]
NUMBERS = [b"0", b"1", b"2", b"7", b"8", b"16", b"255", b"256", b"257", b"512", b"1024", b"65535", b"65536", b"4294967295", b"4294967296",
           b"18446744073709551615", b"18446744073709551616", b"-1", b"01", b"", b"-"]

# ---- how it is mutated

def place(data):
    return chance.randrange(len(data) + 1)

def change_byte(data):
    at = place(data)
    return data[:at] + bytes([chance.randrange(256)]) + data[at + 1:]

def change_bit(data):
    at = place(data)
    return data[:at] + bytes(b ^ 1 << chance.randrange(8) for b in data[at:at + 1]) + data[at + 1:]

def add_bytes(data):
    at = place(data)
    return data[:at] + chance.choice([b"\n", b" ", b"\t", b"\r", b"\0", b"\xff", b"00", b"4d01", b"#", b":", b",", b"= "]) + data[at:]

def cut(data):
    return data[:place(data)]

def leave_out(data):
    at = place(data)
    return data[:at] + data[at + chance.randrange(1, 20):]

def double(data):
    at = place(data)
    part = data[at:at + chance.randrange(1, 200)]
    return data[:at] + part * chance.randrange(2, 4) + data[at + len(part):]

def change_number(data):
    found = list(re.finditer(rb"\d+", data))
    if not found:
        return data
    one = chance.choice(found)
    return data[:one.start()] + chance.choice(NUMBERS) + data[one.end():]

def exchange_words(data):
    found = list(re.finditer(rb"\S+", data))
    if len(found) < 2:
        return data
    one, two = sorted(chance.sample(found, 2), key=lambda m: m.start())
    return data[:one.start()] + two[0] + data[one.end():two.start()] + one[0] + data[two.end():]

def exchange_lines(data):
    lines = data.split(b"\n")
    one, two = chance.randrange(len(lines)), chance.randrange(len(lines))
    lines[one], lines[two] = lines[two], lines[one]
    return b"\n".join(lines)

def add_line(data):
    lines = data.split(b"\n")
    lines.insert(chance.randrange(len(lines) + 1), chance.choice(LINES))
    return b"\n".join(lines)

def change_frame(data):
    found = list(re.finditer(rb"\b(?:[0-9a-f]{2}){16,}\b", data))
    if not found:
        return data
    one = chance.choice(found)
    frame = bytearray.fromhex(one[0].decode())
    frame[chance.randrange(len(frame))] = chance.choice([0, 1, 2, 8, 10, 53, 0x4d, 255, chance.randrange(256)])
    return data[:one.start()] + frame.hex().encode() + data[one.end():]

CHANGES = [change_byte, change_bit, add_bytes, cut, leave_out, double, change_number, exchange_words, exchange_lines, add_line, change_frame]

# the language lets a line be tried, and a wait turn, four thousand million times, which is no hang: such numbers are cut
def is_patient(line):
    return b"try" in line or b"wait" in line

def cap(data):
    return b"\n".join(re.sub(rb"\d{4,}", lambda m: m[0][:3], line) if is_patient(line) else line for line in data.split(b"\n"))

def mutated(words, seeds):
    data = chance.choice(seeds)
    for _ in range(chance.choice([1, 1, 2, 3, 8])):
        data = chance.choice(CHANGES)(data)
    return cap(data) if words[0] == "run" else data

# ---- what comes out

def adds_up(line):
    words = line.split()
    if words[:1] == [b"channel"] or words[:1] == [b"messages"]:
        a, t, d, q, r = [int(words[words.index(name) + 1]) for name in [b"accepted", b"taken", b"dropped", b"queued", b"ring"]]
        return a == t + d + q + r
    return True

def fits(words, status, written, said):
    if said:
        return False
    if words[0] in ("run", "relay", "calls") and status == 0:
        lines = written.split(b"\n")
        return lines[0] == (b"mcapi-report 1 serial" if words[0] == "run" else b"mcapi-report 1 threads") and lines[-2:] == [b"end", b""] and all(adds_up(line) for line in lines)
    if words[0] == "check" and status == 0:
        return written == b"right\n"
    front = b"refused " if status == 3 else b"wrong " if status == 1 else b"right "
    return written.startswith(front) and written.endswith(b"\n") and written.count(b"\n") == 1

def limit():
    resource.setrlimit(resource.RLIMIT_DATA, (MOST_MEMORY, MOST_MEMORY))

def run(words, data):
    with tempfile.TemporaryFile() as file, tempfile.TemporaryFile() as written:
        file.write(data)
        file.seek(0)
        done = subprocess.run([PROGRAM, *words], stdin=file, stdout=written, stderr=subprocess.PIPE, preexec_fn=limit, timeout=MOST_SECONDS)
        written.seek(0)
        return done.returncode, written.read(), done.stderr

def stop(words, data, why):
    with tempfile.NamedTemporaryFile(prefix="mcrun-fuzz-", delete=False) as file:
        file.write(data)
    sys.exit(f"{PROGRAM} {' '.join(words)} < {file.name}: {why} (seed {SEED})")

start, runs, counts, slowest = time.perf_counter(), 0, {}, 0.0
while time.perf_counter() - start < SECONDS:
    words, seeds, statuses = chance.choice(KINDS)
    data = mutated(words, seeds)
    begun = time.perf_counter()
    try:
        status, written, said = run(words, data)
    except subprocess.TimeoutExpired:
        stop(words, data, f"it runs for more than {MOST_SECONDS} seconds")
    slowest = max(slowest, time.perf_counter() - begun)
    if status not in statuses:
        stop(words, data, f"status {status}")
    if not fits(words, status, written, said):
        stop(words, data, f"what it wrote does not fit status {status}")
    runs += 1
    counts[words[0], status] = counts.get((words[0], status), 0) + 1
took = time.perf_counter() - start
print(f"{runs} inputs in {took:.0f} s, {runs / took:.0f} a second; the slowest took {slowest:.2f} s; seed {SEED}")
for (form, status), count in sorted(counts.items()):
    print(f"{form}: {count} with status {status}")
END
