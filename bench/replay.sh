#!/usr/bin/env bash
# Prints how long replays of large records take and how much memory they use. It judges nothing.
# Usage: bench/replay.sh [PROGRAM]; without a program it builds the one of this repository.
set -eu
cd "$(dirname "$0")/.."
program=${1:-}
if [ -z "$program" ]; then
  (cd crates/tws_program && rt run -- replay < ../../examples/night.txt > /dev/null 2>&1)
  program=crates/tws_program/out/tws_program
fi
record=$(mktemp)
trap 'rm -f "$record"' EXIT

# night JOBS FOLLOWS TURNS: a stream of jobs that each follow so many of the jobs before, all ended, and idle turns
night() {
  awk -v jobs="$1" -v follows="$2" -v turns="$3" 'BEGIN {
    print "$NETWORK\nws M\n$PLAN\nstream M S"
    for (i = 1; i <= jobs; i++) {
      print "job M J" i
      for (k = 1; k <= follows && i > 1; k++) print "follows J" (i - k > 0 ? i - k : 1)
    }
    print "$STEPS\nnext\nturn M 1"
    for (i = 1; i <= jobs; i++) print "turn M 1\nended M " i " 0"
    for (i = 0; i < turns; i++) print "turn M 1"
  }'
}

# measure NAME: the record's size, and what its replay takes
measure() {
  local name=$1 begin end bytes
  bytes=$(wc -c < "$record")
  begin=$(date +%s%N)
  "$program" replay < "$record" > /dev/null
  end=$(date +%s%N)
  printf '%s: %s bytes, %s ms' "$name" "$bytes" "$(((end - begin) / 1000000))"
  if [ -x /usr/bin/time ]; then
    printf ', %s KB\n' "$(/usr/bin/time -f %M "$program" replay < "$record" 2>&1 > /dev/null | tail -n 1)"
  else
    printf '\n'
  fi
}

night 64 1 199000 > "$record"
measure '64 jobs in a chain, 199000 idle turns'
night 64 64 199000 > "$record"
measure '64 jobs that follow 64 each, 199000 idle turns'
{ night 1 0 0; awk 'BEGIN { for (i = 0; i < 1000000; i++) print "# a comment" }'; } > "$record"
measure 'a million comments'
for sample in '40 7' '400 1' '2000 7'; do
  # shellcheck disable=SC2086
  "$program" sample $sample > "$record"
  measure "sample $sample"
done
