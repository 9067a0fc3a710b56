#!/usr/bin/env bash
# The tests of the Rust crates, the example's text and the crate's page, against the proved library, which archive.sh makes;
# or against that in the folder that SELQUORIN_LIB names. The random runs are long, unless SELQUORIN_CALLS says how many calls
# they make. Its last line is 'rust: N passed, M failed', with what cargo's result lines sum up to; its status is not 0 if
# anything failed.
set -u -o pipefail
cd "$(dirname "$0")" || exit 2
SELQUORIN_LIB=$(if [ -n "${SELQUORIN_LIB:-}" ]; then cd "$OLDPWD" && cd "$SELQUORIN_LIB" && pwd; else bash archive.sh; fi) ||
  { echo 'rust: the static library was not built'; exit 1; }
export SELQUORIN_LIB SELQUORIN_CALLS="${SELQUORIN_CALLS:-200000}"

log=$(mktemp) || exit 2
trap 'rm -f "$log"' EXIT
cargo test --release --offline --no-fail-fast 2>&1 | tee "$log"
status=${PIPESTATUS[0]}

counts=$(awk '/^test result: / {
    for (i = 2; i <= NF; i++) {
      if ($i ~ /^passed/) passed += $(i - 1)
      if ($i ~ /^failed/) failed += $(i - 1)
    }
  }
  END { print passed + 0, failed + 0 }' "$log")
passed=${counts% *}
failed=${counts#* }
# No test, or a failure that no result line tells of, such as a crate that does not compile.
if [ "$failed" -eq 0 ] && { [ "$status" -ne 0 ] || [ "$passed" -eq 0 ]; }; then
  failed=1
fi

# Runs a command that passes or fails as one.
holds() {
  if "$@"; then
    passed=$((passed + 1))
  else
    echo "failed: $*"
    failed=$((failed + 1))
  fi
}

example() {
  cargo run --release --offline --quiet --example six_sites | diff - selquorin/examples/six_sites.txt
}

# Typed plainly, cargo makes the page of the crate and no other, and that has no broken link.
page() {
  RUSTDOCFLAGS='-D warnings' cargo doc --offline 2>&1 | tee "$log" && grep -q 'Generated .*/doc/selquorin/index\.html$' "$log"
}

holds example
holds python3 ../tests/six_sites.py
holds page
echo "rust: $passed passed, $failed failed"
[ "$failed" -eq 0 ]
