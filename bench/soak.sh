#!/bin/sh
# Runs boards on threads for a long time, and stops at the first report whose totals are wrong, or in whose last one a ring line is missing
# or its image has a fault:
#   as many messages over one link as an input of `run` holds, again and again until MESSAGES have gone over;
#   a host that sends 300 messages to each of two remotes and receives as many from each, RUNS times;
#   the board of `load 2000`, whose report `check` has to find right;
#   two domains whose journals outgrow their memory: out of memory on a thread is status 6, and nothing is written.
# Run it at the top of the repository, where crates/mcrun is built: sh bench/soak.sh [MESSAGES [RUNS]]
# Without numbers MESSAGES is 10,000,000 and RUNS 1,000.
set -e
exec python3 - crates/mcrun/out/mcrun "$@" <<'END'
import resource, subprocess, sys, tempfile, time

PROGRAM = sys.argv[1]
MESSAGES, RUNS = [int(n) for n in sys.argv[2:] + ["10000000", "1000"][len(sys.argv) - 2:]]
LIMIT = 8_388_608           # the most bytes of an input
TRY = "try 99999999"        # until the answer is there

def text(lines):
    return ("\n".join(lines) + "\n").encode()

def board(domains, links):
    head = [f"domain {d} nodes 1 pool 2" for d in range(domains)] + [f"link {a} {b} size 256" for a, b in links]
    head += [f"{d}.0 create 1" for d in range(domains)]
    both = [*links, *((b, a) for a, b in links)]
    return head + [f"{a}.0 n{b} = lookup {b}:0:1" for a, b in both] + [f"{a}.0 {TRY} test n{b}" for a, b in both]

def send(here, there):
    return f"{here}.0 {TRY} msg_send 1 {there}:0:1 0 -"

def receive(here):
    return f"{here}.0 {TRY} msg_recv 1 0"

def run(given, memory=None):
    limit = (lambda: resource.setrlimit(resource.RLIMIT_DATA, (memory, memory))) if memory else None
    with tempfile.TemporaryFile() as file, tempfile.TemporaryFile() as written:
        file.write(given)
        file.seek(0)
        done = subprocess.run([PROGRAM, "run"], stdin=file, stdout=written, preexec_fn=limit)
        written.seek(0)
        return done.returncode, written.read()

def run_whole(given, messages):
    status, report = run(given)
    totals = f"\nmessages accepted {messages} taken {messages} dropped 0 queued 0 ring 0\n"
    if status or totals.encode() not in report:
        sys.exit(f"status {status}, and not {messages} messages taken")
    return report

# of each link both queues, whose images are read by the form `ring`
def check_rings(report, links):
    rings = [line.split() for line in report.decode().splitlines() if line.startswith("ring ")]
    if [words[1:4] for words in rings] != [[str(a), str(b), q] for a, b in links for q in "01"]:
        sys.exit("ring lines of other links")
    for words in rings:
        done = subprocess.run([PROGRAM, "ring"], input=bytes.fromhex(words[4]), stdout=subprocess.PIPE)
        if done.returncode or not done.stdout.startswith(f"right 256 {words[3]} ".encode()):
            sys.exit(f"the image of {' '.join(words[:4])} is {done.stdout.decode()}")

def soak(name, links, given, messages, runs):
    start = time.perf_counter()
    for _ in range(runs):
        report = run_whole(given, messages)
    check_rings(report, links)
    print(f"{name}: {messages * runs} messages in {runs} runs, {time.perf_counter() - start:.0f} s", flush=True)

one_link, two_links = [(0, 1)], [(0, 1), (0, 2)]
head = board(2, one_link)
pair = [send(0, 1), receive(1)]
count = (LIMIT - len(text(head))) // len(text(pair))
soak("one link", one_link, text(head + pair * count), count, -(-MESSAGES // count))

rounds = [send(0, 1), send(0, 2), receive(0), receive(0), send(1, 0), receive(1), send(2, 0), receive(2)]
soak("a host and two remotes", two_links, text(board(3, two_links) + rounds * 300), 1200, RUNS)

# the board that `load N` runs, as docs/FORMATS.md has it
def load_board(packets):
    end, domains = 4_294_967_295, [(d, (d + 1) % 4) for d in range(4)]
    groups = [["domain {d} nodes 1 pool 2"], ["link {d} {e} size 16"], ["{d}.0 create 1", "{d}.0 create 2"],
              ["{d}.0 a = lookup {e}:0:2", "{d}.0 wait a {end}"],
              ["{d}.0 c = try {end} connect 1 {e}:0:2 packet", "{d}.0 wait c {end}"],
              ["{d}.0 try {end} open_recv 2 packet", "{d}.0 try {end} open_send 1 packet"]]
    lines = [line.format(d=d, e=e, end=end) for group in groups for d, e in domains for line in group]
    for k in range(1, packets + 1):
        content = k.to_bytes(4, "little").hex()
        for line in (f"try {end} pkt_send 1 {content}", f"p{k} = try {end} pkt_recv 2", f"release p{k}"):
            lines += [f"{d}.0 {line}" for d, _ in domains]
    return text(lines)

start = time.perf_counter()
status, report = run(load_board(2000))
channels = [f"channel {d} 1 accepted 2000 taken 2000 dropped 0 queued 0 ring 0" for d in range(4)]
if status or ("\n" + "\n".join(channels) + "\n").encode() not in report:
    sys.exit(f"status {status}, and not 2000 packets taken of each channel")
verdict = subprocess.run([PROGRAM, "check"], input=report, stdout=subprocess.PIPE)
if verdict.stdout != b"right\n":
    sys.exit(f"the report of the load board is {verdict.stdout.decode()}")
print(f"the load board: 2000 packets on each of four channels, {time.perf_counter() - start:.0f} s, its report right", flush=True)

alone = [line for d in range(2) for line in [f"domain {d} nodes 1 pool 2"]] + [f"{d}.0 create 1" for d in range(2)]
alone += [line for d in range(2) for line in [f"{d}.0 msg_send 1 {d}:0:1 0 " + "ab" * 488, f"{d}.0 msg_recv 1 0"]] * 1000
whole = b"\nmessages accepted 2000 taken 2000 dropped 0 queued 0 ring 0\n"
statuses = []
for megabytes in range(1, 25):
    status, written = run(text(alone), megabytes << 20)
    statuses.append(status)
    if not (status == 6 and not written or status == 0 and whole in written):
        sys.exit(f"status {status} with {megabytes} MB, and {len(written)} bytes written")
print(f"data of 1 to 24 MB: {statuses.count(6)} times out of memory and nothing written, {statuses.count(0)} times a whole report")
END
