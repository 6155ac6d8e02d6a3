#!/usr/bin/env bash
# Compares the program `records` with the Rust on the texts that oracle/texts.sh prints for the same arguments.
#   oracle/compare.sh random 1 1000000
#   oracle/compare.sh exhaustive c 4 1
# Prints the counts and the first differences. Exit status 1 where there is a difference that docs/DIFFERENCES.md does not list.
set -euo pipefail
folder=$(dirname "$0")
records=${RECORDS:-$folder/../crates/records/out/records}
compare=$folder/build/target/release/compare
if [ ! -x "$compare" ]; then
  echo "oracle/compare.sh: missing: the build; run oracle/setup.sh" >&2
  exit 2
fi
if [ ! -x "$records" ]; then
  echo "oracle/compare.sh: missing: $records; 'rt run </dev/null' in crates/records builds it" >&2
  exit 2
fi

. "$folder/../x86_64_only.sh"
work=$(mktemp -d)
trap 'rm -rf "$work"' EXIT
"$folder/texts.sh" "$@" >"$work/texts"
"$records" <"$work/texts" >"$work/ours"
echo "$*"
"$compare" "$work/texts" "$work/ours"
