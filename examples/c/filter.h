/* What the policy `filter` lets code load, and fields of packets. docs/FROM-C.md has a session. */
typedef unsigned long u64;
typedef u64 quad __attribute__((may_alias)); /* a quadword in memory, whatever was stored there */

/* A packet at a multiple of 8, its length in bytes, at least 64, and two quadwords of scratch. Returns 1 to select it, else 0. */
#define UNUSED __attribute__((unused))
#define FILTER u64 filter(const char *packet, u64 length UNUSED, quad *scratch UNUSED)

/* The quadword at offset K: a multiple of 8, below the length. */
#define QUAD(k) (*(const quad *)(packet + (k)))

/* Big-endian numbers at a constant offset K that end below 64. */
#define BYTE(k) FIELD(k, 1)
#define BE16(k) ((u64)__builtin_bswap16(FIELD(k, 2)))
#define BE32(k) ((u64)__builtin_bswap32(FIELD(k, 4)))

/* A constant of 16 bits in the order of the packet's bytes, to compare loaded bytes with. */
#define SWAPPED(x) __builtin_bswap16(x)

/* N bytes, at most 7, from a constant offset K on, the first lowest. They are in one quadword, or in two. */
#define FIELD(k, n) (((k) & 7) + (n) <= 8 ? LOW(k, n) : LOW(k, n) | HIGH(k, n))
#define LOW(k, n) (QUAD((k) & ~7ul) >> 8 * ((k) & 7) & MASK(n))
#define HIGH(k, n) (QUAD(((k) & ~7ul) + 8) << 8 * (-(k) & 7) & MASK(n))
#define MASK(n) ((1ul << 8 * (n)) - 1)
