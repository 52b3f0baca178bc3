#!/bin/sh
# Checks mutated reports with two programs, and stops at the first on which they differ: in the verdict, the wrong line, its reason or the status.
# For a change of the passes that is to change no verdict: OLD is a program that was built before it, NEW one that was built after it. Both may be
# of scripts/unproved.
# It prints how many reports had which verdict. The report that stopped it stays in a file.
# Run it at the top of the repository: sh bench/verdicts.sh OLD NEW [COUNT [SEED]]
# Without numbers COUNT is 5000 and SEED 1. The same seed makes the same reports, but for those of runs on threads.
set -e
exec python3 - "$@" <<'END'
import collections, os, random, subprocess, sys, tempfile

OLD, NEW, COUNT, SEED = [*sys.argv[1:], *["", "", "5000", "1"][len(sys.argv) - 1:]][:4]
if not NEW:
    sys.exit("usage: sh bench/verdicts.sh OLD NEW [COUNT [SEED]]")
chance = random.Random(int(SEED))

def reports():
    for name in sorted(os.listdir("examples")):
        if name.endswith(".scenario"):
            with open(os.path.join("examples", name), "rb") as file:
                scenario = file.read()
            for words in (["run", "--serial"], ["run"]):
                yield subprocess.run([OLD, *words], input=scenario, stdout=subprocess.PIPE, check=True).stdout

REPORTS = list(reports())
LINES = [line for report in REPORTS for line in report.split(b"\n")[:-1]]
DIGITS = b"0123456789abcdef"

def mutated(report):
    lines = report.split(b"\n")
    at = chance.randrange(len(lines))
    kind = chance.randrange(10)
    if kind == 0:
        del lines[at]
    elif kind == 1:
        lines.insert(at, lines[at])
    elif kind == 2:
        other = chance.randrange(len(lines))
        lines[at], lines[other] = lines[other], lines[at]
    elif kind == 3:
        lines.insert(at, chance.choice(LINES))
    elif kind == 4:
        lines[at] = chance.choice(LINES)
    elif kind == 5:
        return report[:chance.randrange(len(report) + 1)]
    elif kind == 6:
        words = lines[at].split(b" ")
        place = chance.randrange(len(words))
        words[place] = str(chance.choice([0, 1, 2, 3, 8, 9, 255, 256, 2**32 - 1, 2**32, 2**64])).encode()
        lines[at] = b" ".join(words)
    elif kind == 7:
        places = [i for i, byte in enumerate(lines[at]) if byte in DIGITS]
        if places:
            line = bytearray(lines[at])
            line[chance.choice(places)] = chance.choice(DIGITS)
            lines[at] = bytes(line)
    elif kind == 8:
        line = bytearray(lines[at])
        line.insert(chance.randrange(len(line) + 1), chance.choice(b"0 af-\nA"))
        lines[at] = bytes(line)
    else:
        line = bytearray(lines[at])
        if line:
            del line[chance.randrange(len(line))]
        lines[at] = bytes(line)
    return b"\n".join(lines)

def verdict(program, report):
    done = subprocess.run([program, "check"], input=report, stdout=subprocess.PIPE)
    return done.returncode, done.stdout

counts = collections.Counter()
for _ in range(int(COUNT)):
    report = chance.choice(REPORTS)
    for _ in range(chance.choice([1, 1, 1, 2, 3])):
        report = mutated(report)
    old, new = verdict(OLD, report), verdict(NEW, report)
    if old != new:
        with tempfile.NamedTemporaryFile(delete=False, suffix=".report") as file:
            file.write(report)
        sys.exit(f"{file.name}: {OLD} answers {old}, {NEW} answers {new}")
    counts[old[1].split(b" ")[-1].strip().decode()] += 1
print("; ".join(f"{name} {count}" for name, count in sorted(counts.items())))
END
