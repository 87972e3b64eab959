#!/usr/bin/env bash
# Times examples/capture on large captures, one part after the other and several at a time, beside `tcpdump -r` with
# an equal filter, if it is installed. It prints seconds of the clock for a gigabyte, of processor time, and the most
# memory that one process takes. One capture has frames of 64 to 98 bytes, of twelve kinds, the other has them padded
# to 1,514 bytes. Then come `pcc run` alone on packet files of these frames, by `xargs -P`, and the processor time that
# is left for the script itself. The status is 1 if lines differ, or if tcpdump takes another number of frames.
#
# usage: bench/captures.sh [BYTES]  of a capture, 1,000,000,000 without it; as many are taken in the folder for
#                                   temporary files, and lines besides
#
# PCC is the program that is measured; without it tools/build builds the proved one. JOBS is how many
# parts are run at a time, as many as there are processors without it.
set -eu
top=$(cd "$(dirname "${BASH_SOURCE[0]}")/.." && pwd)
. "$top/tools/usage.sh"
usage 1 "$@"
work=$(mktemp -d)
trap 'rm -rf "$work"' EXIT
. "$top/bench/program.sh"
python3 - "$top" "$PCC" "$work" "${1-1000000000}" "${JOBS-$(nproc)}" <<'PY'
import hashlib, os, shutil, struct, subprocess, sys, time

top, binary, work, size, jobs = sys.argv[1:]
size, jobs = int(size), int(jobs)
ONE = ["taskset", "-c", "0"] if shutil.which("taskset") else []  # one processor
container, filter_text = top + "/examples/port/container", "ip and tcp dst port 80"
failed = False

def packets_of(data):
    at = 0
    while at < len(data):
        length = struct.unpack_from("<I", data, at)[0]
        yield data[at + 4:at + 4 + length]
        at += 4 + length

with open(top + "/examples/frames/packets", "rb") as file:
    FRAMES = [frame for frame in packets_of(file.read()) if len(frame) >= 64]

def capture_of(frames):
    """A capture of the frames again and again, and how many it has."""
    records = b"".join(struct.pack("<IIII", 0, 0, len(f), len(f)) + f for f in frames)
    times = max(1, (size - 24) // len(records))
    with open(work + "/capture", "wb") as out:
        out.write(struct.pack("<IHHiIII", 0xA1B2C3D4, 2, 4, 0, 0, 65535, 1))
        for _ in range(times // 1000):
            out.write(records * 1000)
        out.write(records * (times % 1000))
    return work + "/capture", times * len(frames)

def packet_file(frames):
    """The longest packet file of whole rounds of the frames, and how many it has."""
    packets = b"".join(struct.pack("<I", len(f)) + f for f in frames)
    times = 4194304 // len(packets)
    with open(work + "/packets", "wb") as out:
        out.write(packets * times)
    return work + "/packets", times * len(frames)

def run(words, names=()):
    """Seconds of the clock and of processor time, and megabytes at the most; what is printed goes to a file."""
    global failed
    start, before = time.monotonic(), os.times()
    with open(work + "/lines", "wb") as out:
        words = ["time", "-f", "%M", "-o", work + "/memory", *map(str, words)]
        done = subprocess.run(words, input="".join(name + "\n" for name in names).encode(), stdout=out, stderr=subprocess.DEVNULL)
    clock, after = time.monotonic() - start, os.times()
    with open(work + "/memory") as file:
        memory = int(file.read().split()[-1]) / 1024
    if done.returncode != 0:
        failed = True
        print("EXPECTED status 0: %d" % done.returncode)
    return clock, after[2] + after[3] - before[2] - before[3], memory

def lines():
    """A digest of what was printed, and how many lines say 1."""
    with open(work + "/lines", "rb") as file:
        digest, taken = hashlib.sha256(), 0
        for line in file:
            digest.update(line)
            taken += line.endswith(b": 1\n")
    return digest.hexdigest(), taken

def row(name, measured, count, against=None):
    clock, used, memory = measured
    gigabytes = os.path.getsize(work + "/capture") / 1e9
    print("%-52s %8.1f s/GB %8.1f s/GB of processor time %6.0f MB  %7.0f k frames/s%s"
          % (name, clock / gigabytes, used / gigabytes, memory, count / clock / 1e3,
             "  %.1f x tcpdump" % (clock / against) if against else ""), flush=True)

def expect(name, got, wanted):
    global failed
    if got != wanted:
        failed = True
        print("EXPECTED of %s %s: %s" % (name, wanted, got))

def rows(title, frames):
    path, count = capture_of(frames)
    print("%s: %d frames, %d bytes, filter `%s`" % (title, count, os.path.getsize(path), filter_text), flush=True)
    taken = against = None
    if shutil.which("tcpdump"):
        against, *rest = run(["tcpdump", "-n", "-r", path, "-w", "/dev/null", filter_text])
        row("tcpdump -r FILE FILTER -w /dev/null", (against, *rest), count)
        run(["tcpdump", "--count", "-n", "-r", path, filter_text])
        with open(work + "/lines") as file:
            taken = int(file.read().split()[0])
    else:
        print("tcpdump: it isn't installed")
    words = [sys.executable, top + "/examples/capture", "--pcc", binary]
    whole = run(ONE + words + ["filter", container, path])
    row("examples/capture, one part after the other", whole, count, against)
    first = lines()
    if taken is not None:
        expect("the frames that are taken", first[1], taken)
    for number in sorted({1, 2, jobs} - {1}):
        row("examples/capture --jobs %d" % number, run(words + ["--jobs", number, "filter", container, path]), count, against)
        expect("the lines of --jobs %d" % number, lines(), first)
    packets, held = packet_file(frames)
    names = [packets] * max(1, round(count / held))
    for number in (1, jobs):
        ones = ONE if number == 1 else []
        own_file = 'exec "$0" run filter "$1" "$2" > "$3.$$"'  # since several would wait for each other with one
        measured = run(ones + ["xargs", "-P", number, "-I{}", "sh", "-c", own_file, binary, container, "{}", work + "/run"],
                       names)
        row("pcc run on %d packet files of the frames, %d jobs" % (len(names), number), measured, held * len(names), against)
        if number == 1:
            own = whole[1] - measured[1] * count / (held * len(names))
            print("%-52s %8.1f s/GB of processor time, %.2f ms a thousand frames"
                  % ("the script itself", own / os.path.getsize(path) * 1e9, own / count * 1e6), flush=True)

rows("frames of 64 to 98 bytes", FRAMES)
rows("frames of 1,514 bytes", [frame.ljust(1514, b"\0") for frame in FRAMES])
sys.exit(1 if failed else 0)
PY
