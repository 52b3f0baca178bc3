#!/bin/sh
# Runs boards with `mcrun run --bells`, and stops at the first report that does not end as due or that `check` does not find right:
#   as many messages over one link as an input holds, again and again until MESSAGES have gone over;
#   a host that sends 300 messages to each of two remotes and receives as many from each, RUNS times.
# Then it prints, with `run` beside:
#   the processor time of a board of eight domains, of which seven wait for a second until the eighth sends them a message;
#   the time of a round trip of a message of 8 bytes between two domains, and of two threads with a condition variable (bench/condition.c).
# Run it at the top of the repository, where crates/mcrun is built: sh bench/bells.sh [MESSAGES [RUNS [ROUNDS]]]
# Without numbers MESSAGES is 100,000, RUNS 10 and ROUNDS 5,000. `sh bench/bells.sh 10000000 1000 50000` takes about an hour.
# MCRUN=PROGRAM names another program than the one that is built.
set -e
exec python3 - "${MCRUN-crates/mcrun/out/mcrun}" "$@" <<'END'
import os, shutil, subprocess, sys, tempfile, time

PROGRAM = sys.argv[1]
MESSAGES, RUNS, ROUNDS = [int(n) for n in sys.argv[2:] + ["100000", "10", "5000"][len(sys.argv) - 2:]]
LIMIT = 8_388_608           # the most bytes of an input
END = 4_294_967_295         # the limit of a wait without end, and the tries of a line without end
RUN, BELLS = ["run"], ["run", "--bells"]

def text(lines):
    return ("\n".join(lines) + "\n").encode()

def board(domains, links):
    head = [f"domain {d} nodes 1 pool 2" for d in range(domains)] + [f"link {a} {b} size 256" for a, b in links]
    return head + [f"{d}.0 create 1" for d in range(domains)]

def found(pairs):
    return [f"{a}.0 n{b} = lookup {b}:0:1" for a, b in pairs] + [f"{a}.0 wait n{b} {END}" for a, b in pairs]

def both_ways(links):
    return found([*links, *((b, a) for a, b in links)])

def send(here, there, content="-"):
    return f"{here}.0 try {END} msg_send 1 {there}:0:1 0 {content}"

def receive(here):
    return f"{here}.0 try {END} msg_recv 1 488"

# a whole run: its seconds, its processor time, and its report, which is right
def run(words, given, messages):
    with tempfile.TemporaryFile() as file, tempfile.TemporaryFile() as written:
        file.write(given)
        file.seek(0)
        start, before = time.perf_counter(), os.times()
        done = subprocess.run([PROGRAM, *words], stdin=file, stdout=written)
        took, after = time.perf_counter() - start, os.times()
        written.seek(0)
        report = written.read()
        totals = f"\nmessages accepted {messages} taken {messages} dropped 0 queued 0 ring 0\n"
        if done.returncode or totals.encode() not in report:
            sys.exit(f"{' '.join(words)}: status {done.returncode}, and not {messages} messages taken")
        written.seek(0)
        verdict = subprocess.run([PROGRAM, "check"], stdin=written, stdout=subprocess.PIPE)
        if verdict.returncode or verdict.stdout != b"right\n":
            sys.exit(f"{' '.join(words)}: its report is {verdict.stdout.decode()}")
    return took, after.children_user + after.children_system - before.children_user - before.children_system

def soak(name, given, messages, runs):
    start = time.perf_counter()
    for _ in range(runs):
        run(BELLS, given, messages)
    print(f"{name}: {messages * runs} messages in {runs} runs, {time.perf_counter() - start:.0f} s, each report right", flush=True)

# ---- many messages

one_link, two_links = [(0, 1)], [(0, 1), (0, 2)]
head, pair = board(2, one_link) + both_ways(one_link), [send(0, 1), receive(1)]
count = min(MESSAGES, (LIMIT - len(text(head))) // len(text(pair)))
soak("one link", text(head + pair * count), count, -(-MESSAGES // count))

rounds = [send(0, 1), send(0, 2), receive(0), receive(0), send(1, 0), receive(1), send(2, 0), receive(2)]
soak("a host and two remotes", text(board(3, two_links) + both_ways(two_links) + rounds * 300), 1200, RUNS)

# ---- seven that wait for a second

def waiting(tries):
    eight = board(8, [(a, b) for a in range(8) for b in range(a + 1, 8)]) + found([(0, d) for d in range(1, 8)])
    eight += [line for d in range(1, 8) for line in (f"{d}.0 r = msg_recv_i 1 9", f"{d}.0 wait r {END}")]
    return text(eight + ["0.0 r = msg_recv_i 1 9", f"0.0 try {tries} test r", "0.0 cancel r"] + [send(0, d, "61") for d in range(1, 8)])

tries = 100_000
tries = int(tries / run(BELLS, waiting(tries), 7)[0])
print("| eight domains, of which seven wait | seconds | seconds of processor |\n|---|---|---|")
for words in (RUN, BELLS):
    took, used = run(words, waiting(tries), 7)
    print(f"| `{' '.join(words)}` | {took:.2f} | {used:.2f} |", flush=True)

# ---- round trips

def trips(rounds):
    there_and_back = [send(0, 1, "6162636465666768"), receive(1), send(1, 0, "6162636465666768"), receive(0)]
    return text(board(2, one_link) + both_ways(one_link) + there_and_back * rounds)

print("| a round trip | microseconds |\n|---|---|")
for words in (RUN, BELLS):
    least = min(run(words, trips(ROUNDS), 2 * ROUNDS)[0] for _ in range(5))
    print(f"| `{' '.join(words)}`, with reading and writing its lines | {least / ROUNDS * 1e6:.1f} |", flush=True)
compiler = shutil.which("cc") or shutil.which("clang")
if compiler:
    with tempfile.TemporaryDirectory() as room:
        threads = os.path.join(room, "condition")
        subprocess.run([compiler, "-O2", "-pthread", "bench/condition.c", "-o", threads], check=True)
        least = min(float(subprocess.check_output([threads, str(ROUNDS)])) for _ in range(5))
        print(f"| two threads with a condition variable | {least / ROUNDS * 1e6:.1f} |")
END
