"""Native code and the library on packets: a part of bench/all.sh."""
from __future__ import annotations

import os
import statistics
import subprocess
from typing import Dict, List, NamedTuple, Tuple

REPEATS = 7


class Taken(NamedTuple):
    """What a pass over packets came to."""

    nanoseconds: float  # of processor time a packet, without an empty call
    count: int  # how many packets are taken


class Beside:
    """Programs that run a container beside the interpreter, built in a folder. `missing` says which aren't there."""

    def __init__(self, top: str, work: str, compiler: str, native: str, archive: str) -> None:
        self.top, self.work, self.compiler, self.native = top, work, compiler, native
        self.speed, self.missing = os.path.join(work, "native_speed"), []
        words = [compiler, "-O2", "-o", self.speed, top + "/bench/native_speed.c"]
        library = ["-DWITH_LIBRARY", top + "/c/heap.c", archive]
        self.has_library = self.makes(words + library + ["-lpcap", "-ldl"])
        self.has_native = self.has_library or self.makes(words + ["-lpcap", "-ldl"])
        if not self.has_native:
            self.missing.append("native code and the library: no C compiler, or libpcap's headers aren't installed")
        elif not self.has_library:
            self.missing.append("the library: %s isn't there; tools/c_check builds it" % archive)

    @staticmethod
    def makes(words: List[str]) -> bool:
        try:
            return subprocess.run(words, stdout=subprocess.DEVNULL, stderr=subprocess.DEVNULL).returncode == 0
        except OSError:
            return False

    def contestants(self, container: str) -> List[Tuple[str, str]]:
        """The rows' names, each with what runs the container, as bench/native_speed.c takes it."""
        if not self.has_native:
            return []
        made, shared = os.path.join(self.work, "beside.o"), os.path.join(self.work, "beside.so")
        subprocess.run([self.native, "filter", container, made], check=True, stdout=subprocess.DEVNULL)
        subprocess.run([self.compiler, "-shared", "-o", shared, made], check=True)
        found = [("pcc_native's code", "N:" + shared)]
        return found + [("libpcc's pcc_host_run", "L:" + container)] * self.has_library

    def passes(self, container: str, packets: str, rounds: int) -> Dict[str, Taken]:
        """What each made of the packets, by the rows' names."""
        found = self.contestants(container)
        if not found:
            return {}
        words = [self.speed, packets, str(rounds), str(REPEATS), "E:"] + [word for _, word in found]
        printed = subprocess.run(words, check=True, stdout=subprocess.PIPE, universal_newlines=True).stdout
        rows = [line.split() for line in printed.splitlines()]
        times = [statistics.median(map(float, row[:-1])) for row in rows]
        return {name: Taken(max(time - times[0], 1e-3), int(row[-1]))
                for (name, _), time, row in zip(found, times[1:], rows[1:])}
