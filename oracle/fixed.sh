#!/usr/bin/env bash
# Makes oracle/fixed again: the fixed list of texts with the Rust's answers, and the texts where the Rust panics.
set -euo pipefail
export LC_ALL=C # the order of texts/*
cd "$(dirname "$0")"
if [ ! -x build/target/release/fixed ]; then
  echo "oracle/fixed.sh: missing: the build; run oracle/setup.sh" >&2
  exit 1
fi

{
  cat texts/*
  ./texts.sh bytes
  ./texts.sh headers 2
  ./texts.sh exhaustive c 2 1
  ./texts.sh exhaustive g 2
  ./texts.sh exhaustive p 2 Gly1
  ./texts.sh random 1 1500
  ./texts.sh lengths
} | build/target/release/fixed fixed

wc -lc fixed/* >&2
