#!/bin/sh
# Sends packets over several hops with `mcrun relay`, and stops at the first report in which not all of them arrived or that `check` does not
# find right. It prints
#   the packets of 64 bytes a second, end to end, over 1, 2, 4 and 7 hops, by the time of the whole program;
#   the memory of a relay over one hop, and that of `run` on the scenario which the relay made.
# Run it at the top of the repository, where crates/mcrun is built: sh bench/relay.sh [PACKETS [MORE [RUNS]]]
# Without numbers PACKETS is 10,000, of the first table; MORE is 30,000, of the second; and RUNS, of which the fastest counts, is 3. An input has at most
# 8,388,608 bytes, and the scenario of the second table is one, so MORE is at most 35,000.
# MCRUN=PROGRAM names another program than the one that is built.
set -e
exec python3 - "${MCRUN-crates/mcrun/out/mcrun}" "$@" <<'END'
import os, subprocess, sys, tempfile, time

PROGRAM = sys.argv[1]
PACKETS, MORE, RUNS = [int(n) for n in sys.argv[2:] + ["10000", "30000", "3"][len(sys.argv) - 2:]]
SIZE = 64                   # the bytes of a packet

def relay(hops, packets):
    head = f"relay {hops} size 256\n"
    return (head + "".join(f"{k % 256:02x}" * SIZE + "\n" for k in range(packets))).encode()

# a whole run: its seconds, the most memory that it held, and its report, which is right and in which all packets arrived
def run(words, given, hops, packets):
    with tempfile.TemporaryFile() as file, tempfile.TemporaryFile() as written:
        file.write(given)
        file.seek(0)
        start = time.perf_counter()
        child = subprocess.Popen([PROGRAM, *words], stdin=file, stdout=written)
        _, status, used = os.wait4(child.pid, 0)
        took = time.perf_counter() - start
        written.seek(0)
        report = written.read()
        lines = [f"channel {d} 1 accepted {packets} taken {packets} dropped 0 queued 0 ring 0\n" for d in range(hops)]
        if status or ("\n" + "".join(lines)).encode() not in report:
            sys.exit(f"{' '.join(words)}: status {status}, and not {packets} packets over {hops} hops")
        written.seek(0)
        verdict = subprocess.run([PROGRAM, "check"], stdin=written, stdout=subprocess.PIPE)
        if verdict.returncode or verdict.stdout != b"right\n":
            sys.exit(f"{' '.join(words)}: its report is {verdict.stdout.decode()}")
    return took, used.ru_maxrss, report

print(f"| hops | packets of {SIZE} bytes a second |\n|---|---|")
for hops in (1, 2, 4, 7):
    given = relay(hops, PACKETS)
    least = min(run(["relay"], given, hops, PACKETS)[0] for _ in range(RUNS))
    print(f"| {hops} | {PACKETS / least:.0f} |", flush=True)

# The scenario of a report is all between its first line and its first journal.
_, memory, report = run(["relay"], relay(1, MORE), 1, MORE)
scenario = report[report.index(b"\n") + 1:report.index(b"\njournal ") + 1]
print(f"| {MORE} packets of {SIZE} bytes over one hop | MiB |\n|---|---|")
print(f"| `relay` | {memory / 1024:.0f} |")
print(f"| `run` on its scenario of {len(scenario)} bytes | {run(['run'], scenario, 1, MORE)[1] / 1024:.0f} |")
END
