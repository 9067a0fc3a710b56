#!/usr/bin/env bash
# Compiles the example in C against the static library, which is made where it is missing, and holds what it prints to
# count.txt; once by the library's name, and where pkg-config is at hand once by its flags.
set -eu -o pipefail
cd "$(dirname "$(readlink -f "$0")")/.."

# Compiles with the flags that find header and library, and runs.
try() {
  cc -Wall -Wextra -Werror -pedantic -std=c99 example/count.c "$@" -o target/count
  target/count | diff - example/count.txt
}

library=$(bash rust/archive.sh)
try -Iinclude "$library/libselquorin.a"
if command -v pkg-config >/dev/null; then
  flags=$(PKG_CONFIG_PATH=$library pkg-config --cflags --libs selquorin)
  # shellcheck disable=SC2086
  try $flags
fi
