#!/usr/bin/env bash
# Measures the program's speed, and prints a table for each of: start-up, asm, prove and check on examples; files at
# limits; steps a second of ref, run, native code and the library on a checksum; packets a second on a filter for a port; a
# loop of six instructions on one packet of 64 bytes, whose loading costs nothing; and files that double (bench/growth.py).
#
# The filters are measured beside native loops (bench/native.c, if there is a C compiler), and beside libpcap, tcpdump
# and qemu-alpha (its translator and -singlestep) if they are installed. A line `missing: ..` says what isn't.
# bench/tables.py has the form of the tables, and bench/plots draws them. Lines before the tables say when, on which
# machine and with which kit the run was made; the last line says how long it took.
#
# PCC, PCC_NATIVE and PCC_AUTO are the programs that are measured; without them tools/build builds the proved ones. ARCHIVE
# is the library, as tools/c_check builds it. CAPTURE is a program that filters a capture, called with `-c CONTAINER -r FILE
# -w OUT`. CC is the C compiler, cc without it; an empty CC leaves the native rows out. If a command prints another line than the expected
# one, a line `EXPECTED ..` says so, and the status is 1.
#
# usage: bench/all.sh
set -euo pipefail
top=$(cd "$(dirname "${BASH_SOURCE[0]}")/.." && pwd)
. "$top/tools/usage.sh"
usage 0 "$@"
work=$(mktemp -d)
trap 'rm -rf "$work"' EXIT
given=${PCC:+given}
. "$top/bench/program.sh"
set_measured PCC_NATIVE pcc_native
set_measured PCC_AUTO pcc_auto
cd "$top"
python3 -B - "$top" "$PCC" "$PCC_NATIVE" "$PCC_AUTO" "$work" "${CC-cc}" "$given" "${ARCHIVE-$top/crates/pcc_c/out/libpcc_c.a}" \
  "${CAPTURE-}" <<'PY'
import os, shutil, statistics, struct, subprocess, sys, time
sys.path.insert(0, sys.argv[1] + "/bench")
from beside import Beside
from native_rivals import SIX_SOURCE
from tables import Printer
from terms import *
import growth

top, binary, native_binary, auto_binary, work, compiler, given, archive, capture_tool = sys.argv[1:]
bench = top + "/bench"
tables = Printer()
tables.begin(binary, bool(given))

def once(words):
    """What is printed, the status, and seconds of processor time and of the clock."""
    start = time.monotonic()
    process = subprocess.Popen([str(w) for w in words], stdout=subprocess.PIPE, stderr=subprocess.DEVNULL)
    text = process.stdout.read()
    _, status, used = os.wait4(process.pid, 0)
    process.returncode = os.waitstatus_to_exitcode(status)
    return text, process.returncode, used.ru_utime + used.ru_stime, time.monotonic() - start

def median(words, wanted=None, times=5):
    """The medians of processor time and clock, and what is printed; the first line has to be the one wanted."""
    runs = [once(words) for _ in range(times)]
    got = runs[0][0].decode("utf-8", "replace").split("\n")[0] or "status %d" % runs[0][1]
    if wanted is not None and got != wanted:
        tables.expected(wanted, got)
    return statistics.median(r[2] for r in runs), statistics.median(r[3] for r in runs), runs[0][0]

def write(name, data):
    with open(work + "/" + name, "wb") as out:
        out.write(data)
    return work + "/" + name

def read(path):
    with open(path, "rb") as file:
        return file.read()

# ---- start-up; asm, prove, check

tables.table("ordinary: start-up, asm, prove and check of examples; the clock with start-up, median of five, of fifteen for start-up",
             "command", "clock, ms", "times start-up", "processor, ms", "written, bytes")
true_used, true_clock, _ = median(["/bin/true"], times=15)
start_used, start_clock, _ = median([binary], "usage: pcc asm|prove|check|run|ref|demo|upgrade|host|bpf", 15)

def clock_row(name, used, clock, *written):
    tables.row(name, "%.2f" % (clock * 1e3), "%.2f" % (clock / start_clock), "%.2f" % (used * 1e3), *written)

clock_row("/bin/true start-up", true_used, true_clock)
clock_row("pcc start-up", start_used, start_clock)
for name, policy in [("ip", "filter"), ("port", "filter"), ("checksum", "filter"), ("sort", "table")]:
    source, plain, proved = "examples/%s/source.s" % name, work + "/plain", work + "/proved"
    for words, wanted in [(("asm", policy, source, plain), None), (("prove", policy, plain, proved), None), (("check", policy, proved), "accepted")]:
        used, clock, _ = median([binary, *words], wanted)
        out = {"asm": plain, "prove": proved}.get(words[0])
        clock_row(words[0] + " " + name, used, clock, str(os.path.getsize(out)) if out else "")

NOP, LOAD, STORE = 0x47FF041F, 0xA4320000, 0xB4320000
insns = "\n".join(["addq $%d,%d,$%d" % (k % 8, k % 256, (k + 1) % 8) for k in range(1023)] + ["ret"]) + "\n"
t = Terms()
facts = returning_container(t, instead(t, *conjunction(t, [reflexive(t, t.lit(k)) for k in range(26170)])))
stores = container(Terms(), FILTER, [STORE] * 1003 + [LOAD, 0x44203000, RETURN])
tables.table("limits: files at limits; processor time with start-up, median of three", "command", "processor, ms", "times prove")
before = 0
for name, words, wanted in [
    ("asm of 1,024 instructions", ("asm", "filter", write("limit.s", insns.encode()), work + "/out"), "written 4124"),
    ("prove of 1,003 stores", ("prove", "filter", write("stores", stores), work + "/stores.proved"), "written 141624"),
    ("check of these stores", ("check", "filter", work + "/stores.proved"), "accepted"),
    ("check of 26,170 facts, 261,909 entries", ("check", "tag", write("facts", facts)), "accepted"),
]:
    seconds = median([binary, *words], wanted, 3)[0]
    tables.row(name, "%.1f" % (seconds * 1e3), "%.2f" % (seconds / before) if name == "check of these stores" else "")
    before = max(seconds, 1e-3)

# ---- packets, and native loops that filter them

def packets_of(data):
    at = 0
    while at < len(data):
        length = struct.unpack_from("<I", data, at)[0]
        yield data[at + 4:at + 4 + length]
        at += 4 + length

def file_of(packets):
    return b"".join(struct.pack("<I", len(p)) + p for p in packets)

frames = [p for p in packets_of(read("examples/frames/packets")) if len(p) >= 64]
small = (frames * 6000)[:4194304 // (max(map(len, frames)) + 4)]
small_file, none = write("small", file_of(small)), write("none", b"")

def icmp(size):
    """An ICMP message of so many bytes of frame whose one's complement sum is right."""
    packet = bytearray((k * 7 + 1) % 256 for k in range(size))
    packet[12:24] = bytes([8, 0, 0x45, 0, 0xFF, 0xF1, 0, 0, 0, 0, 64, 1])
    packet[24:26] = b"\0\0"
    data = bytes(packet[14:]) + b"\0" * (size % 2)
    total = sum(struct.unpack(">%dH" % (len(data) // 2), data))
    while total >> 16:
        total = (total & 0xFFFF) + (total >> 16)
    packet[24:26] = struct.pack(">H", 0xFFFF - total)
    return bytes(packet)

large = [icmp(65535)] * 63
large_file = write("large", file_of(large))
proved = {}
for name in ("port", "checksum"):
    proved[name] = "examples/%s/container" % name

def steps_of(name, packet):
    """How many steps a packet takes, by halving."""
    path, low, high = write("one", file_of([packet])), 0, 1000000
    while high - low > 1:
        middle = (low + high) // 2
        text = once([binary, "ref", "filter", proved[name], path, "--steps", middle])[0]
        low, high = (middle, high) if text == b"0: out of steps\n" else (low, middle)
    return high

counted = {}
for name in ("port", "checksum"):
    by_packet = {packet: steps_of(name, packet) for packet in (set(frames) if name == "port" else set(large))}
    counted[name] = sum(by_packet[p] for p in (small if name == "port" else large))

native = {}
if compiler and shutil.which(compiler):
    words = [compiler, "-O2", "-o", work + "/native", bench + "/native.c"]
    with_pcap = subprocess.run(words + ["-DWITH_PCAP", "-lpcap"], stdout=subprocess.DEVNULL, stderr=subprocess.DEVNULL).returncode == 0
    if with_pcap or subprocess.run(words).returncode == 0:
        for kind, path, times in [("port", small_file, 50), ("checksum", large_file, 50)]:
            for text in once([work + "/native", path, times])[0].decode().splitlines():
                name, seconds, taken = text.split()
                if name == kind or name in ("libpcap", "six") and kind == "port":
                    native[name] = float(seconds), int(taken)

beside = Beside(top, work, compiler or "none", native_binary, archive)

NO_COMPILER = "%s isn't there, or failed" % compiler if compiler else "CC is empty"
NO_LIBPCAP = "libpcap: " + ("its headers aren't installed" if native else NO_COMPILER)

# ---- qemu-alpha

emulator = next((name for name in ("qemu-alpha", "qemu-alpha-static") if shutil.which(name)), None)

def low_and_high(value):
    """What lda adds, and what ldah has to add before it."""
    low = (value & 0xFFFF) - (value & 0x8000) * 2
    return low, (value - low) >> 16

def load(register, value):
    """Code words that put a value below 2^47 into a register, by way of r25."""
    low, high = low_and_high(value & 0x7FFFFFFF)
    words = [0x24000000 | register << 21 | 31 << 16 | high & 0xFFFF,  # ldah
             0x20000000 | register << 21 | register << 16 | low & 0xFFFF]  # lda
    if value >> 31:
        words += [0x20000000 | 25 << 21 | 31 << 16 | value >> 31,  # lda r25
                  0x48000000 | 25 << 21 | 31 << 13 | 1 << 12 | 0x39 << 5 | 25,  # sll r25,31
                  0x40000000 | register << 21 | 25 << 16 | 0x20 << 5 | register]  # addq
    return words

def alpha_program(code, packet, times):
    """An ELF file that calls the code so many times on the packet, and exits with r0."""
    base, entry = 0x120000000, 0x78
    at = entry + 4 * 64  # the code; then scratch and the packet at a multiple of 8
    data = (at + len(code) + 15) & ~7
    words = load(9, times)
    loop = len(words)
    words += load(16, base + data + 16) + load(17, len(packet)) + load(18, base + data)
    words.append(0xD0000000 | 26 << 21 | ((at - entry) // 4 - len(words) - 1))  # bsr r26
    words.append(0x40000000 | 9 << 21 | 1 << 13 | 1 << 12 | 0x29 << 5 | 9)  # subq r9,1
    words.append(0xF4000000 | 9 << 21 | (loop - len(words) - 1) & 0x1FFFFF)  # bne r9
    words += [0x47E00410, 0x201F0001, 0x00000083]  # bis r31,r0,r16; lda r0,1(r31); callsys: exit
    image = struct.pack("<64I", *words, *[NOP] * (64 - len(words))) + code
    image = image.ljust(data - entry, b"\0") + bytes(16) + packet + bytes(16)
    size = entry + len(image)
    header = b"\x7fELF\2\1\1" + bytes(9) + struct.pack("<HHIQQQIHHHHHH", 2, 0x9026, 1, base + entry, 64, 0, 0, 64, 56, 1, 0, 0, 0)
    return header + struct.pack("<IIQQQQQQ", 1, 7, 0, base, base, size, size, 0x10000) + image

def emulated(flags, code, packet, counts, steps):
    """Million steps a second of the emulator, by the difference of two counts of calls of the code."""
    seconds = []
    for times in counts:
        path = write("alpha", alpha_program(code, packet, times))
        os.chmod(path, 0o755)
        runs = [once([emulator, *flags, path]) for _ in range(3)]
        if any(r[1] != 1 for r in runs):
            return None
        seconds.append(statistics.median(r[2] for r in runs))
    return (counts[1] - counts[0]) * steps / max(seconds[1] - seconds[0], 1e-4) / 1e6

# ---- rates: units of work a second, beside ref and run

def begin_rates(title, unit, *columns):
    tables.table(title, "program", unit, "times ref", "times run", *columns)

def rate_row(name, rate, rates, *cells):
    tables.row(name, "%.1f" % rate, "%.2f" % (rate / rates["ref"]), "%.2f" % (rate / rates["run"]), *cells)

def emulated_rows(rates, rows):
    """The rows of the emulator: name, flags, then what `emulated` takes after them."""
    if emulator is None:
        tables.missing("qemu-alpha isn't installed")
    for name, flags, *words in rows if emulator else ():
        rate = emulated(flags, *words)
        if rate is None:
            tables.expected(name, "another status")
        else:
            rate_row(name, rate, rates)

def beside_rows(rates, container, path, units, rounds, wanted=None, note=""):
    """Rows for native code and the library, in so many units a packet."""
    for name, taken in beside.passes(container, path, rounds).items():
        rate_row(name + note, units / taken.nanoseconds * 1e9, rates, *(["", str(taken.count)] if wanted is not None else []))
        if wanted is not None and taken.count != wanted:
            tables.expected("%d packets taken" % wanted, "%d by %s" % (taken.count, name))
    for text in beside.missing:
        tables.missing(text)

def passes(name, path, count, work_units, times, rounds):
    """Rows for ref, for run, for native code and the library, and for the native loop, in so many units a pass; the rates of
    ref and run."""
    seconds, taken = {}, {}
    for command in ("ref", "run"):
        base = median([binary, command, "filter", proved[name], none], times=times)[0]
        whole, _, text = median([binary, command, "filter", proved[name], path], times=times)
        seconds[command], lines = max(whole - base, 1e-4), text.decode().split("\n")[:-1]
        taken[command] = sum(text.endswith(": 1") for text in lines)
        assert len(lines) == count, (len(lines), count)
    rates = {command: work_units / seconds[command] for command in seconds}
    for command in rates:
        rate_row("pcc " + command, rates[command], rates, "%.4f" % seconds[command], str(taken[command]))
    beside_rows(rates, proved[name], path, work_units / count, rounds, taken["run"])
    if name in native:
        rate_row("native loop", work_units / native[name][0], rates, "%.4f" % native[name][0], str(native[name][1]))
        for command in taken:
            if native[name][1] != taken[command]:
                tables.expected("%d packets taken" % native[name][1], "%d by %s" % (taken[command], command))
    else:
        tables.missing("native loop: " + NO_COMPILER)
    return rates

# ---- the checksum

measured = "processor time without start-up and check, median of "
begin_rates("checksum: checksum of %d packets of 65,535 bytes, %s steps; %seleven; qemu-alpha repeats one packet"
            % (len(large), format(counted["checksum"], ","), measured), "million steps/s", "processor, s", "packets taken")
rates = passes("checksum", large_file, len(large), counted["checksum"] / 1e6, 11, 8)
bytes_of = read(proved["checksum"])
code = bytes_of[16:16 + 4 * struct.unpack_from("<I", bytes_of, 12)[0]]
steps = counted["checksum"] / len(large)
emulated_rows(rates, [("qemu-alpha -singlestep", ["-singlestep"], code, large[0], (1000, 4000), steps),
                      ("qemu-alpha", [], code, large[0], (10000, 20000), steps)])

# ---- the filter for a port

begin_rates("packets: TCP to port 80 on %s frames of 64 to 98 bytes, %s steps; %sfive; pcc writes a line for each packet"
            % (format(len(small), ","), format(counted["port"], ","), measured), "thousand packets/s", "processor, s", "packets taken")
rates = passes("port", small_file, len(small), len(small) / 1e3, 5, 4)
if "libpcap" in native:
    seconds, taken = native["libpcap"]
    rate_row("libpcap's filter `tcp dst port 80`", len(small) / seconds / 1e3, rates, "%.4f" % seconds, str(taken))
else:
    tables.missing(NO_LIBPCAP)
if shutil.which("tcpdump"):
    capture = struct.pack("<IHHiIII", 0xA1B2C3D4, 2, 4, 0, 0, 65535, 1)
    capture += b"".join(struct.pack("<IIII", 0, 0, len(p), len(p)) + p for p in small)
    path, empty = write("capture", capture), write("capture.none", capture[:24])
    base = median(["tcpdump", "-n", "-r", empty, "-w", work + "/taken", "tcp dst port 80"])[0]
    seconds = max(median(["tcpdump", "-n", "-r", path, "-w", work + "/taken", "tcp dst port 80"])[0] - base, 1e-4)
    rate_row("tcpdump -r, which writes the frames", len(small) / seconds / 1e3, rates, "%.4f" % seconds)
    if capture_tool:
        words = [capture_tool, "-c", proved["port"], "-w", work + "/taken", "-r"]
        seconds = max(median([*words, path])[0] - median([*words, empty])[0], 1e-4)
        rate_row("the capture tool, which writes the frames", len(small) / seconds / 1e3, rates, "%.4f" % seconds)
    else:
        tables.missing("the capture tool: CAPTURE isn't given")
else:
    tables.missing("tcpdump isn't installed")

# ---- a loop of six instructions

ROUNDS, STEPS = 50000000, 300000000
SIX = b"""      .inv tt
loop: addq r1,1,r1
      and r1,255,r2
      sll r2,3,r3
      addq r3,r4,r4
      subq r4,r1,r5
      br loop
"""
begin_rates("loop: a loop of six instructions on one packet of 64 bytes; %sfive" % measured, "million steps/s")
once([binary, "asm", "filter", write("six.s", SIX), work + "/six.plain"])
once([binary, "prove", "filter", work + "/six.plain", work + "/six"])
packet, rates = write("packet", file_of([bytes(64)])), {}
for command in ("ref", "run"):
    words = [binary, command, "filter", work + "/six", packet, "--steps"]
    base = median([*words, 1], "0: out of steps")[0]
    rates[command] = STEPS / max(median([*words, STEPS], "0: out of steps")[0] - base, 1e-4) / 1e6
for command in rates:
    rate_row("pcc " + command, rates[command], rates)
counting = write("counting", file_of([bytes(8) + struct.pack("<Q", 10000000) + bytes(48)]))
once([binary, "asm", "filter", write("counting.s", SIX_SOURCE), work + "/counting.plain"])
once([binary, "prove", "filter", work + "/counting.plain", work + "/counting.proved"])
beside_rows(rates, work + "/counting.proved", counting, 60, 1, None, ", its rounds counted in r6")
# the last two: subq r6,1,r6; bne r6
loop = load(6, ROUNDS) + [0x40203401, 0x443FF002, 0x48407723, 0x40640404, 0x40C03526, 0xF4DFFFFA, 0x201F0001, RETURN]
code = struct.pack("<%dI" % len(loop), *loop)
emulated_rows(rates, [("qemu-alpha -singlestep, its rounds counted in r6", ["-singlestep"], code, bytes(64), (1, 3), STEPS),
                      ("qemu-alpha, its rounds counted in r6", [], code, bytes(64), (1, 13), STEPS)])
if "six" in native:
    rate_row("libpcap's bpf_code, six of its own instructions", native["six"][1] / native["six"][0] / 1e6, rates)
else:
    tables.missing(NO_LIBPCAP)

# ---- growth

growth.rows({"pcc": binary, "pcc_native": native_binary, "pcc_auto": auto_binary}, work, once, tables)
tables.end()
sys.exit(1 if tables.failed else 0)
PY
