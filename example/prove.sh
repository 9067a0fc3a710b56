#!/usr/bin/env bash
# prove.sh NAME VERB: runs `rt VERB` in the folder of crate NAME, which proves each crate that NAME stands on, and says in a few
# lines how far it is. What the prover says goes to target/NAME.log, which is shown where something fails. It is run at the root.
set -eu -o pipefail
name=$1
log=target/$name.log

# How many crates NAME stands on, itself among them.
crates() {
  awk -F: -v name="$name" '
    function visit(name,  needs, i) {
      if (!(name in named) || seen[name]++) return
      count++
      for (i = split(named[name], needs, " "); i > 0; i--) visit(needs[i])
    }
    { split($1, words, " "); named[words[1]] = $2 }
    END { visit(name); print count }' crates.txt
}

# Of what rt says a line for each crate that is proved anew, and every half minute without one a sign of life.
progress() {
  local line at=0 status
  while :; do
    status=0
    IFS= read -r -t 30 line || status=$?
    if [ "$status" -gt 128 ]; then
      echo "still proving: $at proved after $SECONDS s"
    elif [ "$status" -gt 0 ]; then
      return
    elif [[ $line =~ ^crate\ ([a-z0-9_]+):\ modules\ loaded=[0-9]+\ checked=([0-9]+)$ ]]; then
      [ "${BASH_REMATCH[2]}" -eq 0 ] || { at=$((at + 1)); echo "proved: ${BASH_REMATCH[1]}"; }
    fi
  done
}

command -v rt >/dev/null || { echo 'rt, of the Rattle kit, is needed'; exit 1; }
count=$(crates)
echo "rt $2 in crates/$name: proves the $count crates that it stands on, which takes minutes the first time"
mkdir -p target
if ! (cd "crates/$name" && rt "$2" </dev/null) 2>&1 | tee "$log" | progress; then
  cat "$log"
  echo "rt $2 in crates/$name failed: above is $log; to begin from nothing, remove every out/ below crates/"
  exit 1
fi
