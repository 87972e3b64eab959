"""The C functions and the packets that bench/native.sh compares native code with."""
import struct

PORT = """#include <stdint.h>
uint64_t filter(const uint8_t *b, uint64_t length) {
  unsigned words, at;
  if (length < 64 || b[12] != 8 || b[13] != 0 || b[14] >> 4 != 4 || b[23] != 6 || (b[20] & 31) || b[21]) return 0;
  words = b[14] & 15; at = 16 + 4 * words;
  if (words < 5 || (at & ~7u) >= length) return 0;
  return b[at] == 0 && b[at + 1] == 80; }
"""

CHECKSUM = """#include <stdint.h>
#include <string.h>
static uint64_t quadword(const unsigned char *b) { uint64_t w; memcpy(&w, b, 8); return w; }
uint64_t filter(const uint8_t *b, uint64_t length) {
  uint64_t sum, at;
  if (length < 64 || b[12] != 8 || b[13] != 0 || b[23] != 1) return 0;
  sum = quadword(b + 8) >> 48;
  for (at = 16; at < length; at += 8) { uint64_t w = quadword(b + at); sum += (w >> 32) + (w & 0xFFFFFFFF); }
  sum = (sum & 0xFFFFFFFF) + (sum >> 32);
  while (sum >> 16) sum = (sum & 0xFFFF) + (sum >> 16);
  return sum == 0xFFFF; }
"""

# what is kept of each round isn't known to gcc, so it can't leave the loop out
SIX = """#include <stdint.h>
#include <string.h>
uint64_t filter(const uint8_t *b, uint64_t length) {
  uint64_t n, r1 = 0, r4 = 0; memcpy(&n, b + 8, 8);
  do { r1 += 1; r4 += (r1 & 255) << 3; __asm__ volatile("" : "+r"(r1), "+r"(r4)); n -= 1; } while (n);
  return r4 & 1; }
"""

SIX_SOURCE = b"""      ldq r6,8(r16)
      .inv tt
loop: addq r1,1,r1
      and r1,255,r2
      sll r2,3,r3
      addq r3,r4,r4
      subq r6,1,r6
      bne r6,loop
      and r4,1,r0
      ret
"""

LINES = {
    0x20: "A = (uint32_t)p[%d] << 24 | p[%d] << 16 | p[%d] << 8 | p[%d];", 0x28: "A = p[%d] << 8 | p[%d];", 0x30: "A = p[%d];",
    0x00: "A = %du;", 0x04: "A += %du;", 0x44: "A |= %du;", 0x54: "A &= %du;", 0x74: "A >>= %d;", 0x16: "return A != 0;",
}
TESTS = {0x15: "A == %du", 0x25: "A > %du", 0x35: "A >= %du", 0x45: "A & %du"}


def line_of(index, insn):
    """An instruction of classic BPF as C."""
    code, jt, jf, k = insn
    if code == 6:
        return "return %d;" % (k != 0)
    if code == 5:
        return "goto L%d;" % (index + 1 + k)
    if code in TESTS:
        return "if (%s) goto L%d; else goto L%d;" % (TESTS[code] % k, index + 1 + jt, index + 1 + jf)
    text = LINES[code]
    return text % tuple(range(k, k + text.count("%d")))


def c_of(program):
    """The C function of a program of classic BPF."""
    lines = ["L%d: %s" % (i, line_of(i, insn)) for i, insn in enumerate(program)]
    start = "#include <stdint.h>\nuint64_t filter(const uint8_t *p, uint64_t length) { uint32_t A = 0;\n"
    return start + "\n".join(lines) + "\n}\n"


def ddd_of(program):
    """A program as `tcpdump -ddd` prints it."""
    return "%d\n" % len(program) + "".join("%d %d %d %d\n" % tuple(insn) for insn in program)


def programs(top, count):
    """So many of the programs of tcpdump in crates/test_tables/data, by rising length."""
    found = []
    with open(top + "/crates/test_tables/data/programs.tsv") as rows:
        for row in rows:
            fields = row.rstrip("\n").split("\t")
            if not row.startswith("#") and fields[1] == "tcpdump":
                data = bytes.fromhex(fields[2])
                found.append([struct.unpack_from("<HBBI", data, at) for at in range(0, len(data), 8)])
    fit = sorted((p for p in found if all(i[0] in LINES or i[0] in TESTS or i[0] in (5, 6) for i in p)), key=len)
    return [fit[round(k * (len(fit) - 1) / (count - 1))] for k in range(count)]


def frames_of(top):
    """The frames of examples/ of at least 64 bytes, and those of the capture, padded to 64."""
    with open(top + "/examples/frames/packets", "rb") as file:
        data = file.read()
    frames, at = [], 0
    while at < len(data):
        length = struct.unpack_from("<I", data, at)[0]
        frames.append(data[at + 4:at + 4 + length])
        at += 4 + length
    with open(top + "/examples/expressions/capture.pcap", "rb") as file:
        data = file.read()
    order, at = "<" if data[:4] in (b"\xd4\xc3\xb2\xa1", b"\x4d\x3c\xb2\xa1") else ">", 24
    frames = [frame for frame in frames if len(frame) >= 64]
    while at < len(data):
        kept = struct.unpack_from(order + "I", data, at + 8)[0]
        frames.append(data[at + 16:at + 16 + kept].ljust(64, b"\0"))
        at += 16 + kept
    return frames


def icmp(size):
    """An ICMP packet of so many bytes whose checksum is right."""
    packet = bytearray((k * 7 + 1) % 256 for k in range(size))
    packet[12:24] = bytes([8, 0, 0x45, 0, 0xFF, 0xF1, 0, 0, 0, 0, 64, 1])
    packet[24:26] = b"\0\0"
    data = bytes(packet[14:]) + b"\0" * (size % 2)
    total = sum(struct.unpack(">%dH" % (len(data) // 2), data))
    while total >> 16:
        total = (total & 0xFFFF) + (total >> 16)
    packet[24:26] = struct.pack(">H", 0xFFFF - total)
    return bytes(packet)
