#!/usr/bin/env bash
# Prints a table of libpcc's host beside libpcap's bpf_filter: nanoseconds a packet of 64, 576, 1,500 and 9,000 bytes, the
# best of five turns of ROUNDS packets each, for three expressions. ARCHIVE is libpcc_c.a, as tools/c_check builds it. If
# the two disagree on a packet, the status is 1.
#
# usage: bench/library.sh [ROUNDS [ARCHIVE]]     (default: 200000 crates/pcc_c/out/libpcc_c.a)
set -eu
top=$(cd "$(dirname "${BASH_SOURCE[0]}")/.." && pwd)
. "$top/tools/usage.sh"
usage 2 "$@"
work=$(mktemp -d)
trap 'rm -rf "$work"' EXIT
"${CC:-cc}" -std=gnu99 -Wall -Wextra -Werror -O2 "$top/bench/library.c" "$top/c/heap.c" \
  "${2:-$top/crates/pcc_c/out/libpcc_c.a}" -lpcap -o "$work/library"
echo '| expression, instructions | bytes | `bpf_filter`, ns | `pcc_host_run`, ns | ratio |'
echo '|---|---|---|---|---|'
"$work/library" "${1:-200000}" ip 'ip and udp' 'ip host 10.0.0.1'
