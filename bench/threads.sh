#!/bin/sh
# Times `mcrun run` on two domains that send each other messages over a link of 256 buffers each way, one way and to and fro, and
# prints the messages of a second. The whole program is timed: reading the scenario, both threads, and writing the report.
# Run it at the top of the repository, where crates/mcrun is built: sh bench/threads.sh
# With a second program of the same forms its messages of a second stand beside: sh bench/threads.sh OTHER
set -e
exec python3 - crates/mcrun/out/mcrun "$@" <<'END'
import subprocess, sys, tempfile, time

PROGRAM, OTHERS = sys.argv[1], sys.argv[2:]
SIZE = 8_000_000            # bytes of a scenario
TRY = "try 1000000000"      # until the answer is there

HEAD = ["domain 0 nodes 1 pool 2", "domain 1 nodes 1 pool 2", "link 0 1 size 256", "0.0 create 1", "1.0 create 1",
        "0.0 far = lookup 1:0:1", "1.0 far = lookup 0:0:1", f"0.0 {TRY} test far", f"1.0 {TRY} test far"]

def text(lines):
    return ("\n".join(lines) + "\n").encode()

def send(here, there, content):
    return f"{here}.0 {TRY} msg_send 1 {there}:0:1 1 " + "ab" * content

def receive(here):
    return f"{here}.0 {TRY} msg_recv 1 488"

# the head, so many times these lines, and how many messages that is
def repeated(lines, messages):
    times = (SIZE - len(text(HEAD))) // len(text(lines))
    return text(HEAD + lines * times), messages * times

def one_way(content):
    return repeated([send(0, 1, content), receive(1)], 1)

def to_and_fro(content):
    return repeated([send(0, 1, content), receive(1), send(1, 0, content), receive(0)], 2)

KINDS = [("one way, 8 bytes", one_way(8)), ("one way, 64 bytes", one_way(64)), ("one way, 488 bytes", one_way(488)),
         ("to and fro, 8 bytes", to_and_fro(8)), ("to and fro, 64 bytes", to_and_fro(64))]

def seconds(program, given, messages):
    with tempfile.TemporaryFile() as file, tempfile.TemporaryFile() as written:
        file.write(given)
        file.seek(0)
        start = time.perf_counter()
        subprocess.run([program, "run"], stdin=file, stdout=written, check=True)
        took = time.perf_counter() - start
        written.seek(0)
        totals = f"\nmessages accepted {messages} taken {messages} dropped 0 queued 0 ring 0\n"
        if totals.encode() not in written.read():
            sys.exit(f"{program} lost messages")
        return took

print("| scenario | messages | a second |" + " beside |" * len(OTHERS))
print("|---|---|---|" + "---|" * len(OTHERS))
for name, (given, messages) in KINDS:
    least = {}
    for _ in range(7):
        for program in [PROGRAM] + OTHERS:
            took = seconds(program, given, messages)
            least[program] = min(took, least.get(program, took))
    print(f"| {name} | {messages} |" + "".join(f" {messages / least[program]:.0f} |" for program in [PROGRAM] + OTHERS), flush=True)
END
