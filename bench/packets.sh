#!/usr/bin/env bash
# Times `pcc ref` over the longest packet file of 64-byte packets, beside `cat` of the same file.
# PCC is the program that is measured; without it tools/build builds the proved one.
#
# usage: bench/packets.sh
set -eu
top=$(cd "$(dirname "${BASH_SOURCE[0]}")/.." && pwd)
. "$top/tools/usage.sh"
usage 0 "$@"
. "$top/bench/program.sh"
work=$(mktemp -d)
trap 'rm -rf "$work"' EXIT
python3 - "$work/packets" <<'PY'
import struct, sys
with open(sys.argv[1], "wb") as out:
    out.write((struct.pack("<I", 64) + bytes(64)) * 61680)
PY
"$PCC" ref filter "$top/examples/first/container" "$work/packets" > "$work/lines"
printf 'packets %s, bytes %s, lines %s\n' 61680 "$(wc -c < "$work/packets")" "$(wc -l < "$work/lines")"
echo 'cat:'
time cat "$work/packets" > /dev/null
echo 'pcc ref:'
time "$PCC" ref filter "$top/examples/first/container" "$work/packets" > /dev/null
