#!/usr/bin/env bash
# Prints the Rust's answers, one on each line, to the texts that oracle/texts.sh prints for the same arguments.
#   oracle/answers.sh random 1 1000000
#   oracle/answers.sh <TEXTS
set -euo pipefail
folder=$(dirname "$0")
programs=$folder/build/target/release
if [ ! -x "$programs/answers" ]; then
  echo "oracle/answers.sh: missing: the build; run oracle/setup.sh" >&2
  exit 1
fi
if [ $# -eq 0 ]; then
  exec "$programs/answers"
fi
"$folder/texts.sh" "$@" | "$programs/answers"
