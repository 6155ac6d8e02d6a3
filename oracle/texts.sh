#!/usr/bin/env bash
# Prints texts, one on each line; without arguments it says which there are.
#   oracle/texts.sh random 1 1000000
set -euo pipefail
programs=$(dirname "$0")/build/target/release
if [ ! -x "$programs/texts" ]; then
  echo "oracle/texts.sh: missing: the build; run oracle/setup.sh" >&2
  exit 1
fi
exec "$programs/texts" "$@"
