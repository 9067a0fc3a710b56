#!/usr/bin/env bash
# program.sh PROGRAM: runs a built program. They are for x86-64; on another processor the emulator of the kit that was
# used up to the port ran them.
set -eu
if [ "$(uname -m)" = x86_64 ]; then
  exec "$@"
fi
tools=$(dirname "$(dirname "$(rt doc)")")/on/$(uname -m)/toolchain
exec "$tools/bin/qemu-x86_64" "$tools/lib/ld-linux-x86-64.so.2" --library-path "$tools/lib" "$@"
