# To be sourced by a script that runs a program which was built here: programs are compiled for x86-64, and elsewhere the script says so and ends.
if [ "$(uname -m)" != x86_64 ]; then
  echo "${0##*/}: the programs are compiled for x86-64, and this machine is $(uname -m)" >&2
  exit 2
fi
