#!/usr/bin/env bash
# Prints how long replays of ten large nights of many shapes take, in processor time, and how much memory they use: the
# best of three runs. With a second program it prints both, and whether their reports are equal. It judges nothing.
# Usage: bench/shapes.sh [PROGRAM [OTHER]]; without a program it builds the one of this repository.
set -eu
cd "$(dirname "$0")/.."
program=${1:-}
other=${2:-}
if [ -z "$program" ]; then
  (cd crates/tws_program && rt run -- replay < ../../examples/night.txt > /dev/null 2>&1)
  program=crates/tws_program/out/tws_program
fi
folder=$(mktemp -d)
trap 'rm -rf "$folder"' EXIT
record=$folder/record

# What the records share: a network of a master and of agents below it, links to all of them, and what goes over these.
shared='
  function network(agents,   i) {
    print "$NETWORK\nws M"
    for (i = 1; i <= agents; i++) print "ws A" i " M"
  }
  function links(agents,   i) {
    for (i = 1; i <= agents; i++) print "link M A" i "\nlink A" i " M"
  }
  function turns(agents, t,   i) {
    for (i = 1; i <= agents; i++) print "turn A" i " " t
  }
  function round(agents,   i) {
    for (i = 1; i <= agents; i++) print "reap A" i " 0"
    for (i = 1; i <= agents; i++) print "flow A" i " M"
    for (i = 1; i <= agents; i++) print "flow M A" i
  }
'

# stations COUNT JOBS ROUNDS CHAINED: a stream of so many jobs at each agent, which follow one another or do not
stations() {
  awk -v count="$1" -v jobs="$2" -v rounds="$3" -v chained="$4" "$shared"'BEGIN {
    agents = count - 1
    network(agents); print "$PLAN"
    for (i = 0; i < agents; i++) {
      print "stream A" (i + 1) " S" i
      if (i && chained) print "follows A" i "#S" (i - 1) ".J0"
      for (j = 0; j < jobs; j++) {
        print "job A" (i + 1) " J" j "\ndo \"true\""
        if (j % 2) print "follows J" (j - 1)
      }
    }
    print "$STEPS\nnext"; links(agents)
    for (r = 0; r < rounds; r++) { print "turn M " (1001 + r); turns(agents, 1001 + r); round(agents) }
  }'
}

# day ROUNDS: 800 streams of 12 jobs at four agents, a fence now and then, and turns that have nothing to do
day() {
  awk -v rounds="$1" "$shared"'BEGIN {
    network(4); print "$PLAN"
    for (i = 0; i < 800; i++) {
      agent = "A" (i % 4 + 1)
      print "stream " agent " S" i
      if (i >= 40) print "follows A" ((i - 37) % 4 + 1) "#S" (i - 37)
      for (j = 0; j < 12; j++) {
        print "job " agent " J" j "\ndo \"true\""
        if (j % 3 == 1) print "follows J" (j - 1)
      }
    }
    print "$STEPS\nnext"; links(4)
    for (r = 0; r < rounds; r++) {
      if (r % 3 == 0) print "type M fence A" (r % 4 + 1) ";" (r % 10)
      turns(4, 1001 + r); print "turn M " (1001 + r); turns(4, 1001 + r); round(4)
    }
  }'
}

# idle TURNS: a chain of 64 jobs that ended, and turns that keep nothing
idle() {
  awk -v turns="$1" 'BEGIN {
    print "$NETWORK\nws M\n$PLAN\nstream M S"
    for (i = 0; i < 64; i++) { print "job M J" i; if (i) print "follows J" (i - 1) }
    print "$STEPS\nnext\nturn M 1"
    for (i = 1; i <= 64; i++) print "turn M 1\nended M " i " 0"
    for (i = 0; i < turns; i++) print "turn M 1"
  }'
}

# alone STREAMS JOBS: so many streams of so many jobs at one workstation
alone() {
  awk -v streams="$1" -v jobs="$2" 'BEGIN {
    print "$NETWORK\nws M\n$PLAN"
    for (s = 0; s < streams; s++) {
      print "stream M S" s
      for (j = 0; j < jobs; j++) { print "job M J" j; if (j % 2) print "follows J" (j - 1) }
    }
    print "$STEPS\nnext"
    for (i = 0; i < streams * jobs + 2 * streams + 400; i++) { print "turn M 1"; if (i % 5 == 4) print "reap M 0" }
  }'
}

# orders COUNT: so many orders that are typed at the master for an agent
orders() {
  awk -v count="$1" 'BEGIN {
    print "$NETWORK\nws M\nws A M\n$PLAN\nstream A S\njob A J\n$STEPS\nnext\nlink M A\nlink A M"
    for (i = 0; i < count; i++) {
      t = 11 + i
      print "type M fence A;" (i % 100) "\nturn M " t "\nflow M A\nturn A " t "\nflow A M\nturn M " t
    }
  }'
}

# listing STREAMS JOBS COUNT: a plan that is made and sent, and nothing more
listing() {
  awk -v streams="$1" -v jobs="$2" -v count="$3" "$shared"'BEGIN {
    agents = count - 1
    network(agents); print "$PLAN"
    for (s = 0; s < streams; s++) {
      agent = "A" (s % agents + 1)
      print "stream " agent " S" s
      for (j = 0; j < jobs; j++) print "job " agent " J" j "\ndo \"true\""
    }
    print "$STEPS\nnext"; links(agents); print "turn M 1"
    for (i = 1; i <= agents; i++) print "flow M A" i
  }'
}

# best PROGRAM REPORT: milliseconds of processor time, the least of three runs, and kilobytes
best() {
  local ms='' kb='' took user system
  for _ in 1 2 3; do
    took=$({ TIMEFORMAT='%3U %3S'; time "$1" replay < "$record" > "$2"; } 2>&1)
    read -r user system <<< "${took//./}"
    took=$((10#$user + 10#$system))
    if [ -z "$ms" ] || [ "$took" -lt "$ms" ]; then ms=$took; fi
  done
  if [ -x /usr/bin/time ]; then
    kb=" $(/usr/bin/time -f %M "$1" replay < "$record" 2>&1 > /dev/null | tail -n 1) KB"
  fi
  printf '%s ms%s' "$ms" "$kb"
}

# measure NAME: what the record's replay takes
measure() {
  printf '%s: %s' "$1" "$(best "$program" "$folder/report")"
  if [ -n "$other" ]; then
    printf ', other %s' "$(best "$other" "$folder/other")"
    cmp -s "$folder/report" "$folder/other" || printf ', DIFFERENT'
  fi
  printf '\n'
}

for jobs in 400 2000; do
  "$program" sample "$jobs" 7 > "$record"
  measure "sample $jobs"
done
day 4200 > "$record"
measure 'a day of 9600 jobs'
idle 199000 > "$record"
measure '199000 idle turns'
stations 64 20 150 1 > "$record"
measure '64 workstations in a chain'
stations 64 20 150 0 > "$record"
measure '64 workstations'
stations 256 4 40 1 > "$record"
measure '256 workstations in a chain'
listing 4096 4 33 > "$record"
measure 'listings of 16384 jobs'
orders 10000 > "$record"
measure '10000 orders'
alone 4096 4 > "$record"
measure '4096 streams at one workstation'
