#!/usr/bin/env bash
# Times native code beside gcc -O2 and libpcap's interpreter: hand-written filters, the checksum of 65,535 bytes, a loop of
# six instructions, and twenty expressions of tcpdump through `pcc bpf`, on frames that are drawn.
#
# A contestant's time is processor time, pinned to one processor. In each of fifteen repeats all contestants run in turn on
# the same packets; a ratio is the median of the repeats' ratios. Each row has the bound that it should keep to; a row that
# doesn't ends with `misses`. Contestants that take other packets end the run with status 1.
#
# PCC and PCC_NATIVE are the programs that are measured; without them tools/build builds the proved ones. CC is the C
# compiler, gcc without it. It needs libpcap's headers and taskset. QUICK=1 takes a tenth of the rounds.
#
# usage: bench/native.sh
set -eu
top=$(cd "$(dirname "${BASH_SOURCE[0]}")/.." && pwd)
. "$top/tools/usage.sh"
usage 0 "$@"
work=$(mktemp -d)
trap 'rm -rf "$work"' EXIT
. "$top/bench/program.sh"
set_measured PCC_NATIVE pcc_native
cd "$top"
"${CC-gcc}" -O2 -o "$work/native_speed" bench/native_speed.c -lpcap -ldl
python3 - "$top" "$PCC" "$PCC_NATIVE" "$work" "${CC-gcc}" <<'PY'
import os, random, statistics, struct, subprocess, sys
top, pcc, native, work, compiler = sys.argv[1:]
sys.dont_write_bytecode = True
sys.path.insert(0, top + "/bench")
from native_rivals import CHECKSUM, PORT, SIX, SIX_SOURCE, c_of, ddd_of, frames_of, icmp, programs
from runs import run

CPU = str(max(os.sched_getaffinity(0)))
QUICK = "QUICK" in os.environ
REPEATS = 15
failed = False

def write(name, data):
    with open(work + "/" + name, "wb") as out:
        out.write(data)
    return work + "/" + name

def packets(name, frames):
    return write(name, b"".join(struct.pack("<I", len(frame)) + frame for frame in frames))

def shared(name, *words):
    subprocess.run([compiler, "-shared", "-o", work + "/" + name + ".so", *words], check=True)
    return work + "/" + name + ".so"

def native_of(name, container):
    """The shared object of a container's native code."""
    subprocess.run([native, "filter", container, work + "/" + name + ".o"], check=True, stdout=subprocess.DEVNULL)
    return "N:" + shared(name, work + "/" + name + ".o")

def gcc_of(name, source):
    return "C:" + shared(name, "-O2", "-fPIC", write(name + ".c", source.encode()))

def times(file, rounds, *contestants):
    """The times of an empty call and of each contestant, and how many packets each takes."""
    rounds = max(1, rounds // 10) if QUICK else rounds
    words = ["taskset", "-c", CPU, work + "/native_speed", file, str(rounds), str(REPEATS), "E:", *contestants]
    lines = subprocess.run(words, check=True, capture_output=True, text=True).stdout.splitlines()
    rows = [line.split() for line in lines]
    return [[float(word) for word in row[:-1]] for row in rows], [int(row[-1]) for row in rows]

def ratio(first, second):
    return statistics.median(a / b for a, b in zip(first, second))

def row(what, value, bound, least=False):
    kept = value >= bound if least else value <= bound
    print("%-64s %7.2f  %s %-5g %s" % (what, value, ">=" if least else "<=", bound, "" if kept else "misses"), flush=True)

def same(what, taken):
    global failed
    if len(set(taken)) != 1:
        failed = True
        print("%s: contestants take %s packets" % (what, taken), flush=True)

rng = random.Random(7)
pool = frames_of(top)
mixed = packets("mixed", [rng.choice(pool) for _ in range(4096)])

def filters():
    (_, mine, gcc), (_, *taken) = times(mixed, 50, native_of("port", top + "/examples/port/container"), gcc_of("port_c", PORT))
    same("port", taken)
    row("TCP to port 80 by hand, by the time of gcc -O2", ratio(mine, gcc), 1.15)
    big = packets("big", [icmp(65535)])
    (_, mine, gcc), (_, *taken) = times(big, 500, native_of("sum", top + "/examples/checksum/container"), gcc_of("sum_c", CHECKSUM))
    same("checksum", taken)
    row("the checksum, with fuel, by the time of gcc -O2", ratio(mine, gcc), 1.3)

def six():
    count = 1000000
    loop = packets("loop", [bytes(8) + struct.pack("<Q", count) + bytes(48)])
    source, plain, container = write("six.s", SIX_SOURCE), work + "/six.plain", work + "/six"
    for words in (["asm", "filter", source, plain], ["prove", "filter", plain, container]):
        run([pcc, *words], work)
    program = [(0, 0, 0, count), (7, 0, 0, 0), (0x54, 0, 0, 255), (0x87, 0, 0, 0), (0x14, 0, 0, 1), (0x15, 1, 0, 0), (5, 0, 0, 2**32 - 6), (6, 0, 0, 1)]
    interpreted = "B:" + write("six.ddd", ddd_of(program).encode())
    (_, mine, pcap, gcc), _ = times(loop, 5, native_of("six_code", container), interpreted, gcc_of("six_c", SIX))
    row("a loop of six instructions, as fast as libpcap's interpreter", ratio(pcap, mine), 10, least=True)
    row("the same, by the time of gcc -O2", ratio(mine, gcc), 10)

def expressions():
    """Twenty programs of tcpdump, by rising length."""
    by_gcc, by_pcap, gcc_by_pcap = [], [], []
    for n, program in enumerate(programs(top, 20)):
        source = write("e.bpf", b"".join(struct.pack("<HBBI", *insn) for insn in program))
        run([pcc, "bpf", source, work + "/e%d" % n], work)
        words = native_of("e%d_code" % n, work + "/e%d" % n), gcc_of("e%d_c" % n, c_of(program)), "B:" + write("e.ddd", ddd_of(program).encode())
        (_, mine, gcc, pcap), (_, *taken) = times(mixed, 20, *words)
        same("expression %d" % n, taken)
        by_gcc.append(ratio(mine, gcc))
        by_pcap.append(ratio(pcap, mine))
        gcc_by_pcap.append(ratio(pcap, gcc))
    row("twenty expressions, by the time of gcc -O2, in the median", statistics.median(by_gcc), 2.2)
    row("twenty expressions, as fast as libpcap's interpreter, the least", min(by_pcap), 2, least=True)
    row("the same of gcc -O2, the least", min(gcc_by_pcap), 0, least=True)

def runs():
    """`pcc run` on port's packets, printing included, without start-up."""
    many = packets("many", [rng.choice(pool) for _ in range(40960)])
    whole = statistics.median(run([pcc, "run", "filter", "examples/port/container", many], work).seconds for _ in range(5))
    none = statistics.median(run([pcc, "run", "filter", "examples/port/container", packets("none", [])], work).seconds for _ in range(5))
    (_, mine), _ = times(mixed, 50, native_of("port_again", top + "/examples/port/container"))
    row("TCP to port 80, as fast as `pcc run`", (whole - none) / 40960 * 1e9 / statistics.median(mine), 50, least=True)

filters()
six()
expressions()
runs()
sys.exit(failed)
PY
