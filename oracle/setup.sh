#!/usr/bin/env bash
# Builds the parser of the hgvs crate, unchanged, into oracle/build.
#   oracle/setup.sh FOLDER    FOLDER holds the crate's src/parser
set -euo pipefail

if [ $# -ne 1 ]; then
  echo "usage: oracle/setup.sh FOLDER, which holds the src/parser of the Rust crate hgvs 4.0.1" >&2
  exit 2
fi
sources=$(realpath -m "$1")
cd "$(dirname "$0")"

registry=/usr/share/cargo/registry
crates=(nom-7. serde-1. serde_derive-1. thiserror-1. tracing-0.1.)
packages=(librust-nom+std-dev librust-serde+derive-dev librust-thiserror-dev librust-tracing-dev)
parser_files=(mod.rs ds.rs display.rs error.rs impl_parse.rs parse_funcs.rs)

say() { echo "oracle/setup.sh: $*" >&2; }
stop() {
  say "$*"
  exit 1
}

folder_of_parser() {
  local folder
  for folder in "$sources/src/parser" "$sources"; do
    if [ -f "$folder/parse_funcs.rs" ]; then
      echo "$folder"
      return
    fi
  done
  stop "missing: the crate's parser files, neither in $sources/src/parser nor in $sources"
}

install_packages() {
  local crate
  local missing=()
  for crate in "${crates[@]}"; do
    compgen -G "$registry/$crate*" >/dev/null || missing+=("$crate")
  done
  if [ ${#missing[@]} -eq 0 ]; then
    say "the sources of ${crates[*]} are in $registry"
    return
  fi
  say "missing in $registry: ${missing[*]}"
  command -v apt-get >/dev/null || stop "missing: apt-get, to install the Debian packages ${packages[*]}"
  [ "$(id -u)" -eq 0 ] || stop "run this as root, or install the Debian packages ${packages[*]} first"
  say "installing the Debian packages ${packages[*]}"
  apt-get update >&2 || stop "apt-get update failed"
  DEBIAN_FRONTEND=noninteractive apt-get install --yes --no-install-recommends "${packages[@]}" >&2 || stop "apt-get could not install ${packages[*]}"
}

command -v cargo >/dev/null || stop "missing: cargo (Rust 1.65 or later)"
parser=$(folder_of_parser)
for file in "${parser_files[@]}"; do
  [ -f "$parser/$file" ] || stop "missing: $parser/$file"
done
install_packages

say "copying the parser files from $parser, unchanged, with an empty impl_validate.rs"
rm -rf build/parser build/nom
mkdir -p build/parser
for file in "${parser_files[@]}"; do
  install -m 644 "$parser/$file" build/parser/
done
: >build/parser/impl_validate.rs

nom=$(find "$registry" -maxdepth 1 -name 'nom-7.*' | head -n 1)
[ -n "$nom" ] || stop "missing: nom 7 in $registry"
cp -rL "$nom" build/nom
if grep -q 'for_tuple' build/nom/src/internal.rs; then
  say "$(basename "$nom") reads tuples of parsers by itself"
else
  say "adding a Parser for tuples to a copy of $(basename "$nom")"
  cat nom_tuples.rs >>build/nom/src/internal.rs
fi

say "building"
# The warnings are about nom.
RUSTFLAGS=--cap-lints=allow cargo build --release --offline --quiet --target-dir build/target \
  --config 'source.crates-io.replace-with="debian"' \
  --config "source.debian.directory=\"$registry\"" || stop "the build failed"
say "built; now oracle/answers.sh, oracle/texts.sh and oracle/fixed.sh run"
