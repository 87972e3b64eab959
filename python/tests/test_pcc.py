"""Tests of the package pcc, over the examples and the library that PCC_LIBRARY names."""
from __future__ import annotations

import ctypes
import glob
import hashlib
import os
import re
import struct
import subprocess
import sys
import threading
import unittest
from typing import Any, Callable, List
from unittest import mock

import pcc

TOP = os.path.dirname(os.path.dirname(os.path.dirname(os.path.abspath(__file__))))
RETURN = b"\x06\0\0\0\x01\0\0\0"  # classic BPF: ret 1
POLICIES = ("filter", "tag", "table")


def example(name: str) -> bytes:
    with open(os.path.join(TOP, "examples", name), "rb") as file:
        return file.read()


def packets(name: str) -> List[bytes]:
    data, found = example(name), []
    while data:
        length = 4 + int.from_bytes(data[:4], "little")
        found.append(data[4:length])
        data = data[length:]
    return found


def own_policy() -> pcc.Policy:
    return pcc.Policy.from_file(os.path.join(TOP, "examples", "own_policy", "policy"))


class Checking(unittest.TestCase):
    def test_accepts(self) -> None:
        self.assertTrue(pcc.check("filter", example("port/container")))
        verdict = pcc.explain(pcc.Policy("filter"), bytearray(example("port/container")))
        self.assertTrue(verdict)
        self.assertEqual(verdict, (pcc.Status.DONE, "accepted"))

    def test_refuses(self) -> None:
        verdict = pcc.explain(b"filter", example("patched/container"))
        self.assertFalse(verdict)
        self.assertEqual(verdict, (pcc.Status.NOT_PROOF, "refused 11 NotProof"))
        self.assertFalse(pcc.check("filter", example("patched/container")))
        self.assertEqual(pcc.explain("filter", b"").line, "refused 2 Malformed 0 Cut")

    def test_examples(self) -> None:
        for path in glob.glob(os.path.join(TOP, "examples", "*", "container")):
            for policy in POLICIES:
                container = example(path)
                verdict = pcc.explain(policy, container)
                self.assertEqual(bool(verdict), verdict.line == "accepted")
                self.assertEqual(pcc.check(policy, container), bool(verdict))
                if not verdict:
                    self.assertEqual(int(verdict.line.split()[1]), verdict.status)

    def test_policies(self) -> None:
        self.assertTrue(pcc.check(own_policy(), example("own_policy/container")))
        self.assertFalse(pcc.check("filter", example("own_policy/container")))
        self.assertEqual(own_policy().digest, example("own_policy/container")[8:40])
        text = example("own_policy/policy")
        self.assertEqual(own_policy().digest, hashlib.sha256(text).digest())

    def test_no_policy(self) -> None:
        for call in (pcc.check, pcc.explain, pcc.prove):
            for text, status in (("Filter", pcc.Status.UNKNOWN_POLICY), ("tt\ntt\ntt\n", pcc.Status.BAD_POLICY)):
                with self.assertRaises(pcc.Refused) as caught:
                    call(text, example("port/container"))
                self.assertEqual(caught.exception.status, status)
                self.assertTrue(caught.exception.line)
        with self.assertRaises(pcc.Refused) as caught:
            pcc.Policy("tt\n(eq r1")
        self.assertEqual(caught.exception.line, str(caught.exception))


class Making(unittest.TestCase):
    def test_assembles_and_proves(self) -> None:
        made = pcc.assemble("filter", example("port/source.s"))
        self.assertEqual(pcc.prove("filter", made), example("port/container"))
        later = pcc.assemble("filter", example("port/source.s").decode(), version=2)
        self.assertEqual(later[8:40], pcc.Policy("filter").digest)
        self.assertTrue(pcc.check("filter", pcc.prove("filter", later)))
        self.assertEqual(pcc.assemble("filter", "ret", version=4)[4], 4)

    def test_bounds(self) -> None:
        made = pcc.assemble("filter", example("port/source.s"), version=3, bound=38)
        self.assertTrue(pcc.check("filter", pcc.prove("filter", made)))
        self.refused(pcc.Status.BAD_VERSION, "", pcc.assemble, "filter", "ret", version=3)
        self.refused(pcc.Status.BAD_VERSION, "", pcc.assemble, "filter", "ret", version=2, bound=1)
        self.refused(pcc.Status.BAD_VERSION, "", pcc.assemble, "filter", "ret", version=2**32 + 1)

    def test_own_policy(self) -> None:
        self.refused(pcc.Status.UNKNOWN_POLICY, "unknown policy", pcc.assemble, own_policy(), "ret")
        made = pcc.assemble(own_policy(), "ret", version=2)
        self.assertEqual(made[8:40], own_policy().digest)

    def test_upgrades(self) -> None:
        made = pcc.upgrade(example("ip/container"))
        self.assertTrue(pcc.check("filter", made))
        self.refused(pcc.Status.ALREADY, "refused 12 Already", pcc.upgrade, made)
        self.refused(pcc.Status.MALFORMED, "refused 2 Malformed 0 Cut", pcc.upgrade, b"")

    def test_compiles(self) -> None:
        self.assertTrue(pcc.check("filter", pcc.compile_bpf(example("ip/program"))))
        self.assertTrue(pcc.check("filter", pcc.compile_bpf(RETURN)))
        self.refused(pcc.Status.BAD_PROGRAM, "bpf Size 0", pcc.compile_bpf, b"")

    def test_refuses(self) -> None:
        self.refused(pcc.Status.BAD_SOURCE, "line 1 Mnemonic", pcc.assemble, "filter", "nonsense")
        self.refused(pcc.Status.BAD_SOURCE, "source TooLong", pcc.assemble, "filter", b"\n" * 1048577)
        self.refused(pcc.Status.UNCUT, "refused 7 Uncut 0", pcc.prove, "filter", pcc.assemble("filter", "l:\nbr l"))
        made = pcc.assemble("filter", example("lesson/untold.s"))
        self.refused(pcc.Status.NOT_EASY, "not easy 1", pcc.prove, "filter", made)

    def refused(self, status: pcc.Status, line: str, call: Callable[..., bytes], *arguments: Any, **named: Any) -> None:
        with self.assertRaises(pcc.Refused) as caught:
            call(*arguments, **named)
        self.assertEqual((caught.exception.status, caught.exception.line), (status, line))
        self.assertEqual(str(caught.exception), line or status.name)


class Hosting(unittest.TestCase):
    def test_runs(self) -> None:
        with pcc.Host("filter", example("port/container")) as host:
            self.assertEqual(host.run(bytearray(packets("frames/packets")[0])), (pcc.End.RETURNED, 1, 0))
            self.assertEqual(host.run(bytes(63)), (pcc.End.SHORT, 0, 0))
            self.assertEqual(host.run(bytes(65535)).end, pcc.End.RETURNED)
        with pcc.Host(pcc.Policy("filter"), example("port/container"), steps=1) as host:
            self.assertEqual(host.run(bytes(64)), (pcc.End.OUT_OF_STEPS, 0, 0))

    def test_sums(self) -> None:
        with pcc.Host("table", example("sort/container")) as host:
            for packet in packets("sort/packets"):
                words = struct.unpack("<%dQ" % (-(-len(packet) // 8)), packet + bytes(-len(packet) % 8))
                self.assertEqual(host.run(packet).sum, sum(words) % 2**64)

    def test_refuses(self) -> None:
        for policy, name, status, line in (("filter", "patched", 11, "refused 11 NotProof"),
                                           ("Filter", "port", 32, "unknown policy"),
                                           (own_policy(), "own_policy", 32, "unknown policy")):
            with self.assertRaises(pcc.Refused) as caught:
                pcc.Host(policy, example(name + "/container"))
            self.assertEqual((caught.exception.status, caught.exception.line), (status, line))
        self.assertRaises(ValueError, pcc.Host, "filter", example("port/container"), steps=2**64)

    def test_closed(self) -> None:
        host = pcc.Host("filter", example("port/container"))
        self.refused(pcc.Status.LONG_PACKET, host, bytes(65536))
        host.close()
        host.close()
        self.refused(pcc.Status.NO_HOST, host, bytes(64))

    def test_other_threads(self) -> None:
        host, raised = pcc.Host("filter", example("port/container")), []

        def uses() -> None:
            for call in (lambda: host.run(bytes(64)), host.close):
                try:
                    call()
                except RuntimeError as error:
                    raised.append(str(error))

        thread = threading.Thread(target=uses)
        thread.start()
        thread.join()
        self.assertEqual(raised, ["this host belongs to thread MainThread"] * 2)
        self.assertEqual(host.run(bytes(64)).end, pcc.End.RETURNED)
        host.close()

    def test_threads(self) -> None:
        results: List[List[pcc.Result]] = []

        def runs() -> None:
            with pcc.Host("filter", example("port/container")) as host:
                results.append([host.run(packet) for packet in packets("frames/packets") * 20])

        threads = [threading.Thread(target=runs) for _ in range(4)]
        for thread in threads:
            thread.start()
        for thread in threads:
            thread.join()
        self.assertEqual(results, [results[0]] * 4)

    def refused(self, status: pcc.Status, host: pcc.Host, packet: bytes) -> None:
        with self.assertRaises(pcc.Refused) as caught:
            host.run(packet)
        self.assertEqual(caught.exception.status, status)


class Running(unittest.TestCase):
    """Native code; it runs on x86-64 alone."""

    def test_agrees_with_hosts(self) -> None:
        for policy, name, frames in (("filter", "port", "frames"), ("filter", "checksum", "frames"), ("table", "sort", "sort"),
                                     ("tag", "resource", "resource")):
            container = example(name + "/container")
            with pcc.Native(policy, container) as native, pcc.Host(policy, container) as host:
                for packet in packets(frames + "/packets") + [b"", bytes(63), bytes(range(256)) * 3]:
                    self.assertEqual(native.run(bytearray(packet)), host.run(packet))

    def test_fuel(self) -> None:
        with pcc.Native("filter", example("endless/container"), fuel=10) as native:
            self.assertEqual(native.run(bytes(64)), (pcc.End.OUT_OF_STEPS, 0, 0))
        self.assertRaises(ValueError, pcc.Native, "filter", example("port/container"), fuel=2**64)

    def test_refuses(self) -> None:
        for policy, name, status, line in (("filter", "patched", 11, "refused 11 NotProof"), ("Filter", "port", 32, "unknown policy"),
                                           (own_policy(), "own_policy", 32, "unknown policy")):
            with self.assertRaises(pcc.Refused) as caught:
                pcc.Native(policy, example(name + "/container"))
            self.assertEqual((caught.exception.status, caught.exception.line), (status, line))

    def test_closed(self) -> None:
        native = pcc.Native("filter", example("port/container"))
        self.refused(pcc.Status.LONG_PACKET, native, bytes(65536))
        native.close()
        native.close()
        self.refused(pcc.Status.NO_HOST, native, bytes(64))

    def test_translates(self) -> None:
        self.assertEqual(pcc.translate("filter", example("port/container")), pcc.translate(b"filter", example("port/container")))
        self.assertTrue(pcc.translate(own_policy(), example("own_policy/container")))

    def refused(self, status: pcc.Status, native: pcc.Native, packet: bytes) -> None:
        with self.assertRaises(pcc.Refused) as caught:
            native.run(packet)
        self.assertEqual(caught.exception.status, status)


class Library(unittest.TestCase):
    def test_header(self) -> None:
        with open(os.path.join(TOP, "c", "pcc.h")) as file:
            header = re.sub(r"/\*.*?\*/", "", file.read(), flags=re.S)
        declared = {name: int(number) for name, number in re.findall(r"PCC_(\w+) = (\d+)", header)}
        self.assertEqual(declared, {it.name: it.value for of in (pcc.Status, pcc.End) for it in of})
        self.assertEqual(re.findall(r"#define PCC_ABI (\d+)", header), [str(pcc.ABI)])

    def test_small_buffer(self) -> None:
        whole = pcc.prove("filter", example("port/container"))
        room, pcc.ROOM = pcc.ROOM, 0
        try:
            self.assertEqual(pcc.prove("filter", example("port/container")), whole)
            self.assertEqual(pcc.explain("filter", b"").line, "refused 2 Malformed 0 Cut")
        finally:
            pcc.ROOM = room

    def test_threads(self) -> None:
        wrong: List[str] = []

        def checks(name: str, accepted: bool) -> None:
            for _ in range(20):
                if pcc.check("filter", example(name)) != accepted:
                    wrong.append(name)

        tried = [("port/container", True), ("patched/container", False)] * 4
        threads = [threading.Thread(target=checks, args=it) for it in tried]
        for thread in threads:
            thread.start()
        for thread in threads:
            thread.join()
        self.assertEqual(wrong, [])

    def test_exhausted(self) -> None:
        spent = mock.Mock(pcc_check=lambda *_: 34, pcc_explain=lambda *_: 35, pcc_prove=lambda *_: 34,
                          pcc_host_new=lambda *_: 35)
        with mock.patch("pcc._library", lambda: spent):
            for call, status in ((pcc.check, 34), (pcc.explain, 35), (pcc.prove, 34), (pcc.Host, 35)):
                with self.assertRaises(pcc.Exhausted) as caught:
                    call("filter", b"")
                self.assertEqual((caught.exception.status, caught.exception.line), (status, ""))

    def test_no_library(self) -> None:
        words = "import pcc\ntry: pcc.check('tag', b'')\nexcept OSError: print('none')"
        done = subprocess.run([sys.executable, "-c", words], env=dict(os.environ, PCC_LIBRARY="/no/library"),
                              stdout=subprocess.PIPE, universal_newlines=True)
        self.assertEqual(done.stdout, "none\n")

    def test_types(self) -> None:
        for call in (lambda: pcc.check("filter", "text"), lambda: pcc.upgrade(5), lambda: pcc.Policy(None)):
            self.assertRaises(TypeError, call)
        self.assertIsInstance(pcc._library(), ctypes.CDLL)


if __name__ == "__main__":
    unittest.main()
