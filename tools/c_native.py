"""Native code through the library, as tools/c_check tries it: c/try_native.c, examples/capture.c and examples/server.c."""
from __future__ import annotations

import contextlib
import glob
import os
import re
import shutil
import signal
import struct
import subprocess
import sys
import time
from typing import Dict, Iterator, List, NamedTuple, Set, Tuple

TOP = os.path.dirname(os.path.dirname(os.path.abspath(__file__)))
WARNINGS = ["-std=c99", "-Wall", "-Wextra", "-Werror"]
FUEL = 2000000  # more than the 1,000,000 steps of `pcc run`
POLICIES = ("filter", "tag", "table")
SENT, ROUNDS = 20, 200  # containers of each kind for the server; good ones after that
COPIES = 1000  # of examples/frames/packets, on which a loop without end is too slow
LIVE = 300  # frames that are sent from one network namespace to another


class Wrong(Exception):
    """What isn't as it has to be."""


class Tools(NamedTuple):
    """The programs that are tried, and those to compare with."""

    folder: str
    pcc: str
    ways: List[str]


def at(*names: str) -> str:
    return os.path.join(TOP, *names)


def run(words: List[str], **how: object) -> str:
    """Runs a command and returns what it prints. Its status has to be 0."""
    done = subprocess.run(words, stdout=subprocess.PIPE, stderr=subprocess.STDOUT, universal_newlines=True, **how)
    if done.returncode:
        raise Wrong("%s: status %d\n%s" % (" ".join(words[:4]), done.returncode, done.stdout[-2000:]))
    return done.stdout


def has_pcap() -> bool:
    """Tells whether libpcap's headers are there."""
    found = subprocess.run([os.environ.get("CC", "cc"), "-fsyntax-only", "-x", "c", "-"], input=b"#include <pcap/pcap.h>\n",
                           stderr=subprocess.DEVNULL)
    return found.returncode == 0


def compile_native(folder: str, library: str, ways: Dict[str, List[str]]) -> None:
    """Compiles try_native, server and capture, in a folder, each in each way; capture if libpcap's headers are there."""
    cc = os.environ.get("CC", "cc")
    parts = {"try_native": ["-pthread", "c/try_native.c"], "server": ["examples/server.c", "examples/sha256.c"]}
    if has_pcap():
        parts["capture"] = ["examples/capture.c"]
    for name, words in parts.items():
        for way, flags in ways.items():
            flags = flags + ["-DWITHOUT_MEMORY_LIMIT"] if way else flags
            run([cc, *WARNINGS, *flags, "-Ic", *words, library, *(["-lpcap"] if name == "capture" else []),
                 "-o", os.path.join(folder, name + way)], cwd=TOP)


# ---- native functions


def native_tasks() -> Iterator[List[str]]:
    """Yields the words of c/try_native.c: each policy and container of examples/, with packets."""
    for container in sorted(glob.glob(at("examples", "*", "container"))):
        own = os.path.join(os.path.dirname(container), "packets")
        packets = own if os.path.exists(own) else at("examples", "frames", "packets")
        yield from ([policy, container, packets] for policy in POLICIES)


def native_due(pcc: str, task: List[str]) -> str:
    done = subprocess.run([pcc, "run", *task], stdout=subprocess.PIPE, universal_newlines=True)
    return done.stdout if done.returncode == 0 else "status %s\n" % done.stdout.split()[1]


def try_functions(tools: Tools) -> int:
    """Compares native functions with `pcc run`. Returns how many there were."""
    tasks = list(native_tasks())
    due = "".join(native_due(tools.pcc, task) for task in tasks)
    for way in tools.ways:
        said = run([os.path.join(tools.folder, "try_native" + way), *(word for task in tasks for word in [*task, str(FUEL)])])
        if said != due:
            line = next(k for k, pair in enumerate(zip(said.split("\n"), due.split("\n"))) if pair[0] != pair[1])
            raise Wrong("try_native%s prints %.200r as line %d" % (way, said.split("\n")[line], line + 1))
    return len(tasks)


# ---- the capture tool


def parts_of_list() -> List[Dict[str, str]]:
    """Returns the parts of examples/expressions/list."""
    with open(at("examples", "expressions", "list")) as file:
        _, *parts = file.read().rstrip("\n").split("\n\n")
    return [dict(line.partition(" ")[::2] for line in part.split("\n")) for part in parts]


def numbers_of(text: str) -> Set[int]:
    return {int(word) for word in text.split() if word != "none"}


def frames_in(path: str) -> Set[int]:
    """Returns the numbers of the frames of a capture: their times, in seconds."""
    with open(path, "rb") as file:
        data = file.read()
    found, place = set(), 24
    while place < len(data):
        seconds, _, length, _ = struct.unpack_from("<4I", data, place)
        found.add(seconds)
        place += 16 + length
    return found


def try_expressions(tools: Tools) -> int:
    """Compares what the capture tool takes with the list. Returns how many expressions it took."""
    capture, taken = at("examples", "expressions", "capture.pcap"), 0
    out, program = (os.path.join(tools.folder, name) for name in ("matched.pcap", "program"))
    for number, part in enumerate(parts_of_list()):
        words = [os.path.join(tools.folder, "capture" + tools.ways[-1 if number % 5 == 0 else 0]), "-r", capture, "-w", out]
        alone = subprocess.run([*words, part["expression"]], stdout=subprocess.PIPE, stderr=subprocess.PIPE, universal_newlines=True)
        if ("flag" in part or "refused" in part) != (alone.returncode == 1 and "Opcode" in alone.stderr):
            raise Wrong("capture, %s: status %d, %s" % (part["expression"], alone.returncode, alone.stderr))
        if "refused" in part:
            continue
        if "flag" in part:
            with open(program, "wb") as file:
                file.write(bytes.fromhex(part["program"]))
            run([*words, "-p", program])
        due = numbers_of(part["taken"]) ^ numbers_of(part.get("options", "")) ^ numbers_of(part.get("short", ""))
        if frames_in(out) != due:
            raise Wrong("capture, %s: takes %s" % (part["expression"], sorted(frames_in(out))))
        taken += 1
    return taken


def try_ends(tools: Tools) -> None:
    """Ends the capture tool early: by a signal, and by a reader that goes away."""
    capture, out = os.path.join(tools.folder, "capture"), os.path.join(tools.folder, "early.pcap")
    with open(at("examples", "expressions", "capture.pcap"), "rb") as file:
        data = file.read()
    waiting = subprocess.Popen([capture, "-r", "-", "-w", out], stdin=subprocess.PIPE, stdout=subprocess.PIPE, stderr=subprocess.PIPE)
    waiting.stdin.write(data)
    waiting.stdin.flush()
    while waiting.poll() is None and not os.path.exists(out):
        time.sleep(0.05)
    time.sleep(0.5)
    waiting.send_signal(signal.SIGINT)
    said = waiting.communicate()
    if waiting.returncode != 130 or said[1] or not said[0].startswith(b"frames ") or len(frames_in(out)) != 44:
        raise Wrong("capture after Ctrl-C: status %d, %r" % (waiting.returncode, said))
    many = data + data[24:] * 1000
    left = subprocess.Popen([capture, "-r", "-", "-w", "-"], stdin=subprocess.PIPE, stdout=subprocess.PIPE, stderr=subprocess.PIPE)
    left.stdout.close()
    with contextlib.suppress(BrokenPipeError):
        left.stdin.write(many)
        left.stdin.close()
    if left.wait() != -signal.SIGPIPE or left.stderr.read():
        raise Wrong("capture without a reader: status %d" % left.returncode)


def try_progress(tools: Tools) -> None:
    """Has the capture tool show its counts on a terminal, if one can be opened."""
    words = [os.path.join(tools.folder, "capture"), "-r", at("examples", "expressions", "capture.pcap"), "ip"]
    try:
        terminal, errors = os.openpty()
    except OSError as fault:
        print("tools/c_check: no terminal, %s; the capture tool's progress isn't tried" % fault)
        return
    shown, counted = run_on(words, terminal, errors)
    if not re.match(rb"\rframes \d+, matched .*\x1b\[K", shown) or not counted.startswith(b"frames 44, "):
        raise Wrong("capture on a terminal shows %r, and prints %r" % (shown, counted))


def run_on(words: List[str], terminal: int, errors: int) -> Tuple[bytes, bytes]:
    """Runs a command with a terminal as its standard error. Returns what is shown there, and what it prints."""
    try:
        done = subprocess.run(words, stdout=subprocess.PIPE, stderr=errors)
        return os.read(terminal, 65536), done.stdout
    finally:
        os.close(terminal)
        os.close(errors)


# ---- a device


class Pair:
    """Two network namespaces, each with an end of a veth pair."""

    def __init__(self) -> None:
        self.names = ["pcc%d%s" % (os.getpid(), end) for end in "ab"]

    def __enter__(self) -> "Pair":
        a, b = self.names
        for words in (["netns", "add", a], ["netns", "add", b], ["-n", a, "link", "add", "va", "type", "veth", "peer", "vb", "netns", b],
                      ["-n", a, "link", "set", "va", "up"], ["-n", b, "link", "set", "vb", "up"]):
            done = subprocess.run(["ip", *words], stdout=subprocess.DEVNULL, stderr=subprocess.DEVNULL)
            if done.returncode:
                self.__exit__()
                raise OSError("ip %s has status %d" % (words[0], done.returncode))
        return self

    def __exit__(self, *_: object) -> None:
        for name in self.names:
            subprocess.run(["ip", "netns", "del", name], stderr=subprocess.DEVNULL)


SENDER = """
import socket, sys
one = socket.socket(socket.AF_PACKET, socket.SOCK_RAW)
one.bind(("va", 0))
for k in range(%d):
    protocol = 0x0800 if k %% 3 == 0 else 0x88B5
    one.send(b"\\2" * 12 + protocol.to_bytes(2, "big") + bytes([0x45]) + bytes(79))
"""


def wait_until_listening(pid: int) -> None:
    """Waits until a process has a socket for frames in its network namespace, ten seconds at most."""
    until = time.monotonic() + 10
    while time.monotonic() < until:
        with contextlib.suppress(OSError), open("/proc/%d/net/packet" % pid) as file:
            if len(file.readlines()) > 1:
                break
        time.sleep(0.05)
    time.sleep(0.5)


def try_device(tools: Tools) -> None:
    """Has the capture tool listen to one end of a veth pair, and sends frames from the other."""
    if os.geteuid() != 0 or shutil.which("ip") is None:
        print("tools/c_check: no rights, or no `ip`, for network namespaces; the capture tool isn't tried on a device")
        return
    try:
        with Pair() as pair:
            capture = subprocess.Popen(["ip", "netns", "exec", pair.names[1], os.path.join(tools.folder, "capture"), "-i", "vb", "ip"],
                                       stdout=subprocess.PIPE, stderr=subprocess.PIPE, universal_newlines=True)
            wait_until_listening(capture.pid)
            run(["ip", "netns", "exec", pair.names[0], sys.executable, "-c", SENDER % LIVE])
            time.sleep(1)
            capture.send_signal(signal.SIGINT)
            said = capture.communicate()[0]
    except OSError as fault:
        print("tools/c_check: %s; the capture tool isn't tried on a device" % fault)
        return
    if " matched %d," % (LIVE // 3) not in said:
        raise Wrong("capture of a device: status %d, %s" % (capture.returncode, said))


# ---- the server


def try_server(tools: Tools) -> None:
    """Has examples/ask_server send good and bad containers to the server."""
    packets, path = (os.path.join(tools.folder, name) for name in ("many_packets", "socket"))
    with open(at("examples", "frames", "packets"), "rb") as file:
        data = file.read()
    with open(packets, "wb") as file:
        file.write(data * COPIES)
    server = subprocess.Popen([os.path.join(tools.folder, "server"), path, packets], stdout=subprocess.PIPE, universal_newlines=True)
    try:
        while not os.path.exists(path) and server.poll() is None:
            time.sleep(0.05)
        run([at("examples", "ask_server"), path, "--count", str(SENT), "--rounds", str(ROUNDS), "--pid", str(server.pid)])
    finally:
        server.terminate()
        said = server.communicate()[0]
    asked, accepted, _, *others = (int(word) for word in re.findall(r"\d+", said))
    if server.returncode != 0 or asked != 2 * SENT + ROUNDS + 4 or accepted + sum(others) != asked or others[-1] != 2 or os.path.exists(path):
        raise Wrong("the server ends with status %d, %s" % (server.returncode, said))


def try_native(tools: Tools) -> str:
    """Tries all of it, and returns what there was."""
    functions = try_functions(tools)
    try_server(tools)
    if not has_pcap():
        print("tools/c_check: libpcap's headers aren't here; examples/capture.c isn't tried")
        return "%d native functions" % functions
    expressions = try_expressions(tools)
    try_ends(tools)
    try_progress(tools)
    try_device(tools)
    return "%d native functions and %d expressions" % (functions, expressions)
