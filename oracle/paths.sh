#!/usr/bin/env bash
# Compares the line program, which copies a text that is its own shortest, with the program `records`, whose writer plans every text, on the texts that oracle/texts.sh prints for the same arguments.
#   oracle/paths.sh random 1 1000000
# Exit status 1 where an answer differs.
set -euo pipefail
folder=$(dirname "$0")
crates=$folder/../crates
for program in records saltwhistle; do
  if [ ! -x "$crates/$program/out/$program" ]; then
    echo "oracle/paths.sh: missing: $crates/$program/out/$program; 'rt run </dev/null' in crates/$program builds it" >&2
    exit 2
  fi
done

. "$folder/../x86_64_only.sh"
work=$(mktemp -d)
trap 'rm -rf "$work"' EXIT
"$folder/texts.sh" "$@" >"$work/texts"
# A refused line is the refusal alone.
"$crates/records/out/records" <"$work/texts" | cut -f 2 >"$work/planned"
"$crates/saltwhistle/out/saltwhistle" <"$work/texts" >"$work/written"
cmp "$work/planned" "$work/written"
echo "$(wc -l <"$work/written") answers, $(grep -cv '^! ' "$work/written") texts, $(paste -d '\n' "$work/texts" "$work/written" | awk 'NR % 2 { t = $0; next } t == $0' | wc -l) of them as they came: the same on both paths"
