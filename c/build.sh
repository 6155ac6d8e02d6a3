#!/usr/bin/env bash
# Proves and builds the library for C, target/c/libsaltwhistle.a, and builds the example over it, target/c/example. Both are for x86-64.
set -euo pipefail
cd "$(dirname "$0")/.."
for tool in rt gcc; do
  if ! command -v "$tool" >/dev/null 2>&1; then
    echo "c/build.sh: missing: $tool" >&2
    exit 2
  fi
done
(cd crates/saltwhistle_c && rt lib)
mkdir -p target/c
cp crates/saltwhistle_c/out/libsaltwhistle_c.a target/c/libsaltwhistle.a
if [ "$(uname -m)" != x86_64 ]; then
  echo "built target/c/libsaltwhistle.a; the example links it, and needs an x86-64 machine"
  exit
fi
gcc -std=c11 -Wall -Wextra -Werror -O2 -Ic c/example.c target/c/libsaltwhistle.a -o target/c/example
echo "built target/c/libsaltwhistle.a and target/c/example"
