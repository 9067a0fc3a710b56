#!/usr/bin/env bash
# The loading program on the small example: the journals in entries.bin, the question in ask.bin.
# Builds the program first where it is missing, or older than a source of it. That proves each crate that it stands on, which
# takes a few minutes the first time; how far it is goes to standard error. Standard output has the program's text alone.
set -eu
cd "$(dirname "$(readlink -f "$0")")/.."

program=crates/load/out/load
if [ ! -x "$program" ] || [ -n "$(find crates crates.txt -name out -prune -o \( -type f -o -path 'crates/*/*' \) -newer "$program" -print -quit)" ]; then
  bash example/prove.sh load run >&2
  touch -c "$program"
fi

cd example
bash program.sh "../$program" <entries.bin
