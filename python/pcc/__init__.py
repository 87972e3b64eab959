"""Makes, checks and runs containers of proof-carrying code, by the proved library for C.

    import pcc
    verdict = pcc.explain("filter", container)  # bytes
    if not verdict:
        print(verdict.line)                     # for example: refused 11 NotProof
    with pcc.Host("filter", container) as host:      # or pcc.Native, on x86-64
        print(host.run(packet).r0)

A policy is the name of a built-in one, `filter`, `tag` or `table`, or a `Policy`. Each function but `check` and `explain`
returns bytes, and raises `Refused` with the line that `pcc` prints if there are none. `Exhausted` says nothing about the
arguments.

The library is the shared one that PCC_LIBRARY names, else libpcc.so.N, where N is `ABI`. What is proved of it stands in
docs/LIBRARY.md; this file is only tested. Threads may call at the same time, but each `Host` belongs to one thread.
"""
from __future__ import annotations

import ctypes
import enum
import functools
import os
import threading
from typing import Any, Callable, NamedTuple, Union

__all__ = ["ABI", "End", "Error", "Exhausted", "Host", "Native", "Policy", "Refused", "Result", "Status", "Verdict", "assemble",
           "check", "compile_bpf", "explain", "prove", "translate", "upgrade"]

ABI = 1  # the interface that this file is for, PCC_ABI of pcc.h
ROOM = 65536  # bytes of the buffer that is tried first
DIGEST = 32  # bytes of a digest
PACKET, AREA = 65535, 31  # bytes of a packet at most; quadwords of an area
SHORTEST = {b"filter": 64, b"tag": 16, b"table": 0}  # bytes of a packet at least


class Status(enum.IntEnum):
    """What a call of the library returns, by the names of pcc.h."""

    DONE = 0
    TOO_LONG = 1
    MALFORMED = 2
    OTHER_POLICY = 3
    BAD_CODE = 4
    HEIGHT = 5
    INV_NOT_FORM = 6
    UNCUT = 7
    UNFOLD_LIMIT = 8
    NO_PROOF = 9
    PROOF_WEIGHT = 10
    NOT_PROOF = 11
    ALREADY = 12
    LEMMA_NOT_FORM = 13
    LEMMA_NOT_PROOF = 14
    UNKNOWN_POLICY = 32
    BAD_POLICY = 33
    NO_MEMORY = 34
    TOO_MANY_RESULTS = 35
    NO_ROOM = 36
    BAD_SOURCE = 37
    BAD_PROGRAM = 38
    NOT_EASY = 39
    TOO_BIG = 40
    BAD_VERSION = 41
    HOST_OPEN = 42
    NO_HOST = 43
    LONG_PACKET = 44
    FORBIDDEN = 45


class End(enum.IntEnum):
    """How a run on a packet ends, by the names of pcc.h."""

    SHORT = 0
    RETURNED = 1
    OUT_OF_STEPS = 2


class Error(Exception):
    """A call without a result. `status` says why, and `line` is what `pcc` prints, or empty."""

    def __init__(self, status: Status, line: str) -> None:
        super().__init__(line or status.name)
        self.status = status
        self.line = line


class Refused(Error):
    """The arguments have no result."""


class Exhausted(Error):
    """Memory or cached results ran out. That says nothing about the arguments."""


class Verdict(NamedTuple):
    """What `explain` returns. It is true exactly if the container is accepted."""

    status: Status
    line: str

    def __bool__(self) -> bool:
        return self.status == Status.DONE


class Result(NamedTuple):
    """What `Host.run` returns: how the run ended, register 0 if the code returned, and the sum of the quadwords that the
    code may change under `tag` and `table`. What doesn't apply is 0."""

    end: End
    r0: int
    sum: int


class Policy:
    """A policy: the name of a built-in one, or the two lines of a policy file."""

    def __init__(self, text: Union[str, bytes]) -> None:
        """Raises Refused if the text gives no policy."""
        self.text = _bytes(text)
        self.digest = _made("pcc_policy", self.text)

    @classmethod
    def from_file(cls, path: Union[str, "os.PathLike[str]"]) -> "Policy":
        """Returns the policy in a policy file. Raises Refused if the file spells none."""
        with open(path, "rb") as file:
            return cls(file.read())

    def __repr__(self) -> str:
        return "Policy(%r)" % self.text


PolicyLike = Union[str, bytes, Policy]


class _Handle(ctypes.Structure):
    """`struct pcc_host`."""

    _fields_ = [("live", ctypes.c_uint32), ("at", ctypes.c_void_p)]


class _Result(ctypes.Structure):
    """`struct pcc_result`."""

    _fields_ = [("end", ctypes.c_uint32), ("r0", ctypes.c_uint64), ("sum", ctypes.c_uint64)]


class _Answer(ctypes.Structure):
    """`struct pcc_answer`."""

    _fields_ = [("value", ctypes.c_uint64), ("spent", ctypes.c_uint64)]


_QUADS = ctypes.POINTER(ctypes.c_uint64)
_Function = ctypes.CFUNCTYPE(_Answer, ctypes.c_void_p, ctypes.c_uint64, ctypes.c_void_p, _QUADS, ctypes.c_uint64)


class _Map(ctypes.Structure):
    """`struct pcc_map`."""

    _fields_ = [("call", ctypes.c_void_p), ("size", ctypes.c_size_t)]


@functools.lru_cache(maxsize=None)
def _library() -> ctypes.CDLL:
    """Returns the library. Raises OSError if there is none, and ImportError if it has another interface."""
    name = os.environ.get("PCC_LIBRARY") or "libpcc.so.%d" % ABI
    found = ctypes.CDLL(name)
    text, out = [ctypes.c_char_p, ctypes.c_size_t], [ctypes.c_void_p, ctypes.c_size_t, ctypes.POINTER(ctypes.c_size_t)]
    number, handle = ctypes.c_uint32, ctypes.POINTER(_Handle)
    for function, arguments in (("pcc_abi", []), ("pcc_check", text + text), ("pcc_explain", text + text + out),
                                ("pcc_asm", [number, number] + text + text + out), ("pcc_prove", text + text + out),
                                ("pcc_bpf", text + out), ("pcc_native", text + text + out),
                                ("pcc_upgrade", text + out), ("pcc_policy", text + out),
                                ("pcc_map_new", text + [ctypes.POINTER(_Map)]), ("pcc_map_free", [ctypes.POINTER(_Map)]),
                                ("pcc_host_new", text + text + [ctypes.c_uint64, handle]), ("pcc_host_free", [handle]),
                                ("pcc_host_run", [handle] + text + [ctypes.POINTER(_Result)])):
        call = getattr(found, function)
        call.argtypes, call.restype = arguments, number
    if found.pcc_abi() != ABI:
        raise ImportError("%s has interface %d, not %d" % (name, found.pcc_abi(), ABI))
    return found


def _given(*arguments: Union[int, bytes]) -> "list[Any]":
    """Returns arguments as C takes them: bytes are a pointer and a length."""
    return [part for it in arguments for part in ((it,) if isinstance(it, int) else (it, len(it)))]


def _told(function: str, *arguments: Union[int, bytes]) -> "tuple[Status, bytes]":
    """Calls a function that has a buffer, in one that is large enough. Raises Exhausted."""
    call: Callable[..., int] = getattr(_library(), function)
    written, room = ctypes.c_size_t(), ROOM
    while True:
        out = ctypes.create_string_buffer(max(room, 1))
        status = Status(call(*_given(*arguments), out, room, ctypes.byref(written)))
        if status != Status.NO_ROOM:
            break
        room = written.value
    if status in (Status.NO_MEMORY, Status.TOO_MANY_RESULTS):
        raise Exhausted(status, "")
    return status, out.raw[: written.value]


def _made(function: str, *arguments: Union[int, bytes]) -> bytes:
    """Returns what a function makes. Raises Refused and Exhausted."""
    status, result = _told(function, *arguments)
    if status != Status.DONE:
        raise Refused(status, result.decode("ascii"))
    return result


def _bytes(value: Union[str, bytes]) -> bytes:
    """Returns a text or bytes-like object as bytes."""
    return value.encode() if isinstance(value, str) else memoryview(value).tobytes()


def _policy(policy: PolicyLike) -> bytes:
    return policy.text if isinstance(policy, Policy) else _bytes(policy)


def explain(policy: PolicyLike, container: bytes) -> Verdict:
    """Checks whether the container is accepted under the policy, and returns the verdict with the line of `pcc check`.

    Raises Refused if the text gives no policy, and Exhausted.
    """
    status, line = _told("pcc_explain", _policy(policy), memoryview(container).tobytes())
    if status in (Status.UNKNOWN_POLICY, Status.BAD_POLICY):
        raise Refused(status, line.decode("ascii"))
    return Verdict(status, line.decode("ascii"))


def check(policy: PolicyLike, container: bytes) -> bool:
    """Checks whether the container is accepted under the policy. Raises as `explain` does."""
    given = _policy(policy), memoryview(container).tobytes()
    status = Status(_library().pcc_check(*_given(*given)))
    if status in (Status.NO_MEMORY, Status.TOO_MANY_RESULTS):
        raise Exhausted(status, "")
    if status in (Status.UNKNOWN_POLICY, Status.BAD_POLICY):
        return bool(explain(*given))  # raises with the line
    return status == Status.DONE


def assemble(policy: PolicyLike, source: Union[str, bytes], *, version: int = 1, bound: int = 0) -> bytes:
    """Returns the container, without a proof, that the source is assembled into.

    The version is 1 to 4. In version 3 the bound is the step bound, 1 to 1,000,000,000, and in the others 0. Version 1
    takes names alone. Raises Refused at the first line that is wrong, and Exhausted.
    """
    if not 0 <= version < 2**32 or not 0 <= bound < 2**32:
        raise Refused(Status.BAD_VERSION, "")
    return _made("pcc_asm", version, bound, _policy(policy), _bytes(source))


def prove(policy: PolicyLike, container: bytes) -> bytes:
    """Returns the container with a proof; `check` accepts it. Raises Refused if the prover finds none, and Exhausted."""
    return _made("pcc_prove", _policy(policy), memoryview(container).tobytes())


def compile_bpf(program: bytes) -> bytes:
    """Returns the container for `filter` that a program of classic BPF is compiled to; `check` accepts it.

    An instruction has 8 bytes. Raises Refused if the bytes are no program that can be compiled, and Exhausted.
    """
    return _made("pcc_bpf", memoryview(program).tobytes())


def upgrade(container: bytes) -> bytes:
    """Returns the container of version 2 of one of version 1. Raises Refused if there is none, and Exhausted."""
    return _made("pcc_upgrade", memoryview(container).tobytes())


def translate(policy: PolicyLike, container: bytes) -> bytes:
    """Returns the code of an accepted container for x86-64, as pcc_native of pcc.h does. Raises Refused and Exhausted."""
    return _made("pcc_native", _policy(policy), memoryview(container).tobytes())


class _OfThread:
    """What one thread alone may use. The end of a `with` statement closes it."""

    def __init__(self) -> None:
        self._thread = threading.current_thread()

    def _demand_thread(self) -> None:
        if threading.current_thread() is not self._thread:
            raise RuntimeError("this %s belongs to thread %s" % (type(self).__name__.lower(), self._thread.name))

    def close(self) -> None:
        raise NotImplementedError

    def __exit__(self, *_: object) -> None:
        self.close()


class Native(_OfThread):
    """The code of an accepted container, which the processor runs on packets. x86-64 alone.

    A packet is copied to memory of the object's own, where the code finds what its policy promises. Only the thread that
    makes a Native may use it. The end of a `with` statement gives its pages back, or `close`.
    """

    def __init__(self, policy: PolicyLike, container: bytes, *, fuel: int = 1000000) -> None:
        """Checks the container as `check` does. Each arrival at a loop's head takes a unit of fuel, for each packet anew.

        The policy is a built-in one. Raises Refused if the container isn't accepted, with the line, or if the system forbids
        pages for its code (FORBIDDEN), and Exhausted.
        """
        super().__init__()
        self._map = _Map()
        self._policy, self._fuel = _policy(policy), fuel
        if not 0 <= fuel < 2**64:
            raise ValueError("fuel has to be from 0 to 2**64 - 1")
        if self._policy not in SHORTEST:
            raise Refused(Status.UNKNOWN_POLICY, "unknown policy")
        code = translate(policy, container)
        status = Status(_library().pcc_map_new(code, len(code), ctypes.byref(self._map)))
        if status == Status.NO_MEMORY:
            raise Exhausted(status, "")
        if status != Status.DONE:
            raise Refused(status, "")
        self._call = _Function(self._map.call)
        self._packet = (ctypes.c_uint64 * (PACKET // 8 + 1))()
        self._scratch, self._area = (ctypes.c_uint64 * 2)(), (ctypes.c_uint64 * AREA)()

    def run(self, packet: bytes) -> Result:
        """Returns what the code makes of the packet, which has at most 65,535 bytes: as Host.run, but that code which
        computes with addresses may return other words, and OUT_OF_STEPS says that the fuel ran out.

        Raises Refused with the status LONG_PACKET, or NO_HOST if it is closed.
        """
        self._demand_thread()
        given = memoryview(packet).tobytes()
        if self._map.call is None or len(given) > PACKET:
            raise Refused(Status.NO_HOST if self._map.call is None else Status.LONG_PACKET, "")
        if len(given) < SHORTEST[self._policy]:
            return Result(End.SHORT, 0, 0)
        if self._policy == b"tag":
            given = given[:16]
        quads = (len(given) + 7) // 8
        ctypes.memmove(self._packet, given.ljust(8 * quads, b"\0"), 8 * quads)
        ctypes.memset(self._scratch, 0, 16)
        at = ctypes.addressof(self._packet)
        second = {b"filter": len(given), b"tag": 0, b"table": quads}[self._policy]
        third = ctypes.addressof(self._scratch) if self._policy == b"filter" else 0
        answer = self._call(at, second, third, self._area, self._fuel)
        total = 0 if self._policy == b"filter" else sum(self._packet[:quads]) % 2**64
        return Result(End.OUT_OF_STEPS if answer.spent else End.RETURNED, answer.value, total)

    def close(self) -> None:
        """Gives the pages back. That of a closed one does nothing."""
        self._demand_thread()
        _library().pcc_map_free(ctypes.byref(self._map))

    def __enter__(self) -> "Native":
        return self

    def __del__(self) -> None:
        if self._map.call is not None and threading.current_thread() is self._thread:
            self.close()


class Host(_OfThread):
    """A host of an accepted container, which runs its code on packets.

    Only the thread that makes a host may use it. The end of a `with` statement frees it, or `close`.
    """

    def __init__(self, policy: PolicyLike, container: bytes, *, steps: int = 1000000) -> None:
        """Checks the container as `check` does. The code makes at most `steps` steps for each packet.

        The policy is a built-in one. Raises Refused if the container isn't accepted, with the line, and Exhausted.
        """
        super().__init__()
        self._handle = _Handle()
        if not 0 <= steps < 2**64:
            raise ValueError("steps has to be from 0 to 2**64 - 1")
        given = _policy(policy), memoryview(container).tobytes()
        status = Status(_library().pcc_host_new(*_given(*given), steps, ctypes.byref(self._handle)))
        if status in (Status.NO_MEMORY, Status.TOO_MANY_RESULTS):
            raise Exhausted(status, "")
        if status != Status.DONE:
            line = b"unknown policy" if status == Status.UNKNOWN_POLICY else _told("pcc_explain", *given)[1]
            raise Refused(status, line.decode("ascii"))

    def run(self, packet: bytes) -> Result:
        """Returns what the code makes of the packet, which has at most 65,535 bytes.

        Raises Refused with the status LONG_PACKET, or NO_HOST if the host is closed.
        """
        self._demand_thread()
        result, given = _Result(), memoryview(packet).tobytes()
        status = Status(_library().pcc_host_run(ctypes.byref(self._handle), given, len(given), ctypes.byref(result)))
        if status != Status.DONE:
            raise Refused(status, "")
        return Result(End(result.end), result.r0, result.sum)

    def close(self) -> None:
        """Frees the host. That of a closed host does nothing."""
        self._demand_thread()
        _library().pcc_host_free(ctypes.byref(self._handle))

    def __enter__(self) -> "Host":
        return self

    def __del__(self) -> None:
        if self._handle.live and threading.current_thread() is self._thread:
            self.close()
