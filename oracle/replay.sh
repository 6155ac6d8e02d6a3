#!/usr/bin/env bash
# Makes the input and the expected output of the program `replay` again from oracle/fixed and oracle/refusals.
set -euo pipefail
export LC_ALL=C # a character is a byte
cd "$(dirname "$0")"

# A record stands before the TAB; the Rust refuses by ERR, or cannot take the text.
expected() {
  awk '
    FNR == NR { long[FNR] = length($0) > 4096; next }
    long[FNR] { print "! 1 0"; next }
    $0 == "ERR" || $0 == "NOTUTF8" { print "! 2 0"; next }
    { sub(/\t.*/, ""); print }
  ' fixed/texts fixed/answers
}

cat fixed/texts fixed/panics >../crates/replay/stdin
{
  expected
  cat refusals
} >../crates/replay/stdout
