#!/usr/bin/env bash
# Makes the static library where it is missing, or older than a source of it, and prints the folder that has it. Beside it
# stands selquorin.pc, for pkg-config, which finds the library in its own folder and the header in this repository.
# The kit's archive is for x86-64.
set -eu
cd "$(dirname "$0")/.."

folder=target/staticlib
archive=$folder/libselquorin.a
mkdir -p "$folder"
cat >"$folder/selquorin.pc" <<END
Name: selquorin
Description: In how many journals a word is, and the words that a quorum has in common
Version: $(sed -n 's/^#define SELQUORIN_VERSION "\(.*\)"$/\1/p' include/selquorin.h)
Cflags: -I\${pcfiledir}/../../include
Libs: -L\${pcfiledir} -lselquorin
END
if [ ! -f "$archive" ] || [ -n "$(find crates crates.txt -name out -prune -o \( -type f -o -path 'crates/*/*' \) -newer "$archive" -print -quit)" ]; then
  bash example/prove.sh selquorin_c lib >&2
  cp crates/selquorin_c/out/libselquorin_c.a "$archive"
fi
echo "$PWD/$folder"
