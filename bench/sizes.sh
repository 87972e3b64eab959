#!/usr/bin/env bash
# Prints a table of sizes, a row a crate in the order of crates.txt.
#
# usage: bench/sizes.sh
#
# src, test files, specs and proofs are lines of files. Test files are *tests.rt and test_*.rt, and all code of a crate
# named test_*. Functions (`fn`), clauses (`ensures`) and tests (`#[test]`) are counted in lines of code, functions and
# clauses without those of test files. Edits are the files of must-fail/.
set -u
. "$(dirname "${BASH_SOURCE[0]}")/../tools/usage.sh"
usage 0 "$@"
cd "$(dirname "${BASH_SOURCE[0]}")/../crates" || exit 1

# Each line of the crates' texts, after its file's path and a tab.
lines() {
  find . -name out -prune -o -type f \( -path '*/src/*.rt' -o -path '*/specs/*.antt' -o -path '*/proofs/*.antt' \
    -o -path '*/must-fail/*.edit' \) -print0 | xargs -0 awk '{ print FILENAME "\t" $0 }'
}

lines | awk -F '\t' '
  BEGIN {
    while ((getline line < "../crates.txt") > 0) {
      sub(/#.*/, "", line)
      if (line ~ /:/) { sub(/[ :].*/, "", line); order[++crates] = line }
    }
  }
  {
    split($1, part, "/")
    crate = part[2]; kind = part[3]; text = substr($0, length($1) + 2)
    if (kind == "must-fail") { if (!($1 in seen)) { seen[$1] = 1; size[crate, "edits"]++ }; next }
    if (kind != "src") { size[crate, kind]++; next }
    is_test = crate ~ /^test_/ || $1 ~ /tests\.rt$/ || $1 ~ /\/test_[^\/]*\.rt$/
    size[crate, is_test ? "test files" : "src"]++
    if (text ~ /#\[test\]/) size[crate, "tests"]++
    if (is_test) next
    if (text ~ /^ *(pub )?fn /) size[crate, "functions"]++
    if (text ~ /^ *ensures/) size[crate, "clauses"]++
  }
  function row(name, values, at, line) {
    line = "| " name " |"
    for (at = 1; at <= 8; at++) line = line " " (values[columns[at]] + 0) " |"
    print line
  }
  END {
    split("src|test files|specs|proofs|functions|clauses|tests|edits", columns, "|")
    print "| crate | src | test files | specs | proofs | functions | clauses | tests | edits |"
    print "|---|---|---|---|---|---|---|---|---|"
    for (at = 1; at <= crates; at++) {
      for (of = 1; of <= 8; of++) {
        values[columns[of]] = size[order[at], columns[of]]
        sums[columns[of]] += values[columns[of]]
      }
      row(order[at], values)
    }
    row("all", sums)
  }'
