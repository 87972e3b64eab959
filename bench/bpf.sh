#!/usr/bin/env bash
# Times `pcc bpf`, and what it makes beside libpcap's interpreter and filters written by hand.
#
# First `bpf`, and `check` of what it writes, on programs of forty instructions: processor time, median of
# five, peak memory, bytes. Then three expressions of tcpdump beside the same filter of examples/: steps a
# packet, and packets a second of `run` (processor time without start-up and gate, median of five), of
# libpcap's bpf_code on the same program (bench/native.c, where there is a C compiler and libpcap), and of
# `run` of the filter by hand. Last what other blocks would take, by the steps that the same ways through the
# programs would have: with one load in place of two, a byte taken out by two words, a constant by as few
# words as it needs, and no branch to the next block.
#
# PCC is the program that is measured; without it tools/build builds the proved one. CC is the C
# compiler, cc without it; an empty CC leaves libpcap out. A line that isn't the one expected ends the run
# with status 1.
#
# usage: bench/bpf.sh
set -eu
top=$(cd "$(dirname "${BASH_SOURCE[0]}")/.." && pwd)
. "$top/tools/usage.sh"
usage 0 "$@"
work=$(mktemp -d)
trap 'rm -rf "$work"' EXIT
. "$top/bench/program.sh"
cd "$top"
python3 - "$top" "$PCC" "$work" "${CC-cc}" <<'PY'
import importlib.machinery, importlib.util, os, shutil, statistics, struct, subprocess, sys
top, binary, work, compiler = sys.argv[1:]
sys.dont_write_bytecode = True
sys.path.insert(0, top + "/bench")
from runs import run

loader = importlib.machinery.SourceFileLoader("from_tcpdump", top + "/examples/from_tcpdump")
tcpdump = importlib.util.module_from_spec(importlib.util.spec_from_loader("from_tcpdump", loader))
loader.exec_module(tcpdump)
Insn = tcpdump.Insn
failed = False

def write(name, data):
    with open(work + "/" + name, "wb") as out:
        out.write(data)
    return work + "/" + name

def expect(what, got, wanted):
    global failed
    if got != wanted:
        failed = True
        print("EXPECTED %s: %s, got %s" % (what, wanted, got), flush=True)

def median(words, times=5):
    runs = [run([binary, *words], work) for _ in range(times)]
    return runs[0], statistics.median(r.seconds for r in runs), statistics.median(r.megabytes for r in runs)

# ---- bpf

def compiled(name, program, file="forty"):
    """Compiles a program in a file, checks the container, and prints the row of it; the container's path."""
    source, target = write(file + ".bpf", tcpdump.bytes_of(program)), work + "/" + file
    first, seconds, megabytes = median(["bpf", source, target])
    expect("bpf of " + name, first.line, "written %d" % (os.path.getsize(target) if os.path.exists(target) else 0))
    second, check_seconds, _ = median(["check", "filter", target])
    expect("check of " + name, second.line, "accepted")
    print("%-42s %3d instructions %7d bytes  bpf %7.3f s %4.0f MB  check %7.3f s"
          % (name, len(program), os.path.getsize(target), seconds, megabytes, check_seconds), flush=True)
    return target

RETURN_A = Insn(0x16, 0, 0, 0)
print("bpf and check, processor time")
compiled("one return", [Insn(6, 0, 0, 1)])
compiled("39 loads over two quadwords and a return", [Insn(0x20, 0, 0, 53 - 8 * (n % 7)) for n in range(39)] + [RETURN_A])
compiled("39 sums and a return", [Insn(4, 0, 0, 2**32 - 1 - n) for n in range(39)] + [RETURN_A])
compiled("39 tests, each to the end, and a return", [Insn(0x15, 38 - n, 0, n * 0x1010101) for n in range(39)] + [RETURN_A])
compiled("40 returns", [Insn(6, 0, 0, n) for n in range(40)])

# ---- packets

def packets_of(data):
    at = 0
    while at < len(data):
        length = struct.unpack_from("<I", data, at)[0]
        yield data[at + 4:at + 4 + length]
        at += 4 + length

def file_of(packets):
    return b"".join(struct.pack("<I", len(p)) + p for p in packets)

with open("examples/frames/packets", "rb") as file:
    frames = [p for p in packets_of(file.read()) if len(p) >= 64]
many = (frames * 6000)[:4194304 // (max(map(len, frames)) + 4)]
many_file, none = write("many", file_of(many)), write("none", b"")

def steps_of(container, packet):
    """How many steps a packet takes, by halving."""
    path, low, high = write("one", file_of([packet])), 0, 1000000
    while high - low > 1:
        middle = (low + high) // 2
        line = run([binary, "ref", "filter", container, path, "--steps", middle], work).line
        low, high = (middle, high) if line == "0: out of steps" else (low, middle)
    return high

def ran(container):
    """Seconds of `run` over the packets without start-up and gate, and how many it takes."""
    base = median(["run", "filter", container, none])[1]
    first, seconds, _ = median(["run", "filter", container, many_file])
    lines = first.line.split("\n")
    expect("lines of run", len(lines), len(many))
    return max(seconds - base, 1e-4), sum(line.endswith(": 1") for line in lines)

# ---- steps by the blocks as they are, and by better ones

SIZES = {0x20: 4, 0x28: 2, 0x30: 1}
def way_of(program, packet):
    """The instructions that the program comes to on the packet: the number of each, the next one's, and whether
    the last test before that one held, which is what r6 says."""
    a, at, held, way = 0, 0, False, []
    while True:
        code, jt, jf, k = program[at]
        if code in (6, 0x16):
            return way + [(at, None, held)]
        before, at = at, at + 1
        if code in SIZES:
            a = int.from_bytes(packet[k:k + SIZES[code]], "big")
        elif code in (0, 4, 0x44, 0x54, 0x74):
            a = {0: k, 4: (a + k) % 2**32, 0x44: a | k, 0x54: a & k, 0x74: a >> k}[code]
        elif code == 5:
            at, held = at + k, False
        else:
            held = {0x15: a == k, 0x25: a > k, 0x35: a >= k, 0x45: a & k != 0}[code]
            at += jt if held else jf
        way.append((before, at, held))

STRAIGHT = {0x20: 18, 0x28: 10, 0x30: 6, 0: 7, 4: 10, 0x44: 8, 0x54: 8, 0x74: 1, 5: 1, 6: 1, 0x16: 1}  # a test: 8

def steps_now(program, way):
    """The words that the code runs on this way: each block's, then ret, or bne with r6, and br where that is 0."""
    return sum(STRAIGHT.get(program[at].code, 8) + (1 if after is None or held else 2) for at, after, held in way)

def constant_words(k):
    return 0 if k < 256 else 1 if k < 2**15 else 3 if k < 2**31 else 5

def steps_better(program, way):
    """The words that better blocks would run on it."""
    total = 0
    for at, after, _ in way:
        insn = program[at]
        size = SIZES.get(insn.code)
        if size:
            total += (1 if insn.k // 8 == (insn.k + size - 1) // 8 else 2) + 2 + 4 * (size - 1)
        elif insn.code in tcpdump.TESTS:
            total += constant_words(insn.k) + 1 + (1 if after == at + 1 or insn.jt == 0 or insn.jf == 0 else 2)
        elif insn.code in (6, 0x16):
            total += 2
        else:
            total += {0: max(constant_words(insn.k), 1), 4: constant_words(insn.k) + 3, 0x74: 1, 5: 1}.get(insn.code, constant_words(insn.k) + 1)
    return total

# ---- expressions beside filters by hand

native = None
if compiler and shutil.which(compiler):
    words = [compiler, "-O2", "-o", work + "/native", top + "/bench/native.c", "-DWITH_PCAP", "-lpcap"]
    if subprocess.run(words, stdout=subprocess.DEVNULL, stderr=subprocess.DEVNULL).returncode == 0:
        native = work + "/native"

EXPRESSIONS = [  # what `tcpdump -ddd -y EN10MB` prints of each
    ("ip", "ip", "4,40 0 0 12,21 0 1 2048,6 0 0 262144,6 0 0 0"),
    ("ip src net 192.0.2.0/24", "network",
     "7,40 0 0 12,21 0 4 2048,32 0 0 26,84 0 0 4294967040,21 0 1 3221225984,6 0 0 262144,6 0 0 0"),
    ("ip and tcp dst port 80", "port",
     "11,40 0 0 12,21 0 8 2048,48 0 0 23,21 0 6 6,40 0 0 20,69 4 0 8191,177 0 0 14,72 0 0 16,21 0 1 80,6 0 0 262144,6 0 0 0"),
]

def speed(seconds):
    return len(many) / seconds / 1e3

print("\nexpressions of tcpdump beside the same filter by hand, %d packets of 64 to 98 bytes" % len(many))
print("(taken: `port` also takes the packet with IP options, which the program for headers of 20 bytes leaves out)")
for expression, example, text in EXPRESSIONS:
    program = tcpdump.converted(text.replace(",", "\n"), True)[0]
    container, by_hand = compiled(expression, program, example), "examples/%s/container" % example
    ways = {packet: way_of(program, packet) for packet in set(many)}
    steps = {packet: steps_of(container, packet) for packet in ways}
    for packet, way in ways.items():
        expect("steps of a packet", steps_now(program, way), steps[packet])
    hand = {packet: steps_of(by_hand, packet) for packet in ways}
    mean = lambda found: sum(found[packet] for packet in many) / len(many)
    better = mean({packet: steps_better(program, way) for packet, way in ways.items()})
    seconds, taken = ran(container)
    hand_seconds, hand_taken = ran(by_hand)
    print("  steps a packet: %.1f; by hand %.1f, %.2f of that; with better blocks %.1f, %.2f of that"
          % (mean(steps), mean(hand), mean(hand) / mean(steps), better, better / mean(steps)))
    print("  run: %.0f k packets/s, %d taken; by hand %.0f k packets/s, %.2f times as fast, %d taken"
          % (speed(seconds), taken, speed(hand_seconds), seconds / hand_seconds, hand_taken), flush=True)
    if native:
        name, pcap_seconds, pcap_taken = subprocess.run([native, many_file, "20", work + "/" + example + ".bpf"],
                                                        stdout=subprocess.PIPE, check=True).stdout.decode().split()
        expect("packets that libpcap takes", int(pcap_taken), taken)
        print("  libpcap's bpf_code on the program: %.0f k packets/s, %.2f times as fast as run"
              % (speed(float(pcap_seconds)), seconds / float(pcap_seconds)), flush=True)
if native is None:
    print("  libpcap: it isn't installed, or there is no C compiler")
sys.exit(1 if failed else 0)
PY
