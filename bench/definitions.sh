#!/usr/bin/env bash
# Prints how long large definitions take to be printed and planned, and how much memory. It judges nothing.
# Usage: bench/definitions.sh [PROGRAM]; without a program it builds the one of this repository.
set -eu
cd "$(dirname "$0")/.."
program=${1:-}
if [ -z "$program" ]; then
  (cd crates/tws_program && rt run -- compile < ../../examples/bank.txt > /dev/null 2>&1)
  program=crates/tws_program/out/tws_program
fi
text=$(mktemp)
trap 'rm -f "$text"' EXIT

# definitions STREAMS JOBS: a master, a calendar, a resource and a prompt, and so many streams of so many jobs each, in
# which each stream follows the one before and each job the one before
definitions() {
  awk -v streams="$1" -v jobs="$2" 'BEGIN {
    print "CPUNAME MDM OS UNIX NODE mdm.example DOMAIN MASTERDM FOR MAESTRO TYPE MANAGER END"
    print "DOMAIN MASTERDM MANAGER MDM ISMASTER END"
    print "$CALENDAR\nHOLIDAYS 12/25/2003 01/01/2004\n$PROMPT\nTAPE \"mounted?\"\n$RESOURCE\nMDM#DRIVE 2"
    for (s = 1; s <= streams; s++) {
      follows = s > 1 ? " FOLLOWS S" (s - 1) : ""
      print "SCHEDULE S" s " ON WORKDAYS EXCEPT SU AT 2000 PRIORITY 20" follows " :"
      for (j = 1; j <= jobs; j++) {
        print "J" j " DOCOMMAND \"echo " j "\" RCCONDSUCC \"RC <= 4\" NEEDS DRIVE" (j > 1 ? " FOLLOWS J" (j - 1) : "")
      }
      print "END"
    }
  }'
}

# measure NAME WORD..: the size of the definitions, and what the program takes with these words
measure() {
  local name=$1 begin end bytes
  shift
  bytes=$(wc -c < "$text")
  begin=$(date +%s%N)
  "$program" "$@" < "$text" > /dev/null || true
  end=$(date +%s%N)
  printf '%s: %s bytes, %s ms' "$name" "$bytes" "$(((end - begin) / 1000000))"
  if [ -x /usr/bin/time ]; then
    printf ', %s KB\n' "$(/usr/bin/time -f %M "$program" "$@" < "$text" 2>&1 > /dev/null | tail -n 1)"
  else
    printf '\n'
  fi
}

definitions 4096 4 > "$text"
measure '4,096 streams and 16,384 jobs, planned' plan 12/26/2003
measure '4,096 streams and 16,384 jobs, printed' compile

definitions 50000 4 > "$text"
measure 'printed' compile
# A fault at the end of each step ends the work there.
printf '"' >> "$text"
measure 'tokens, up to a text that is not closed' compile
sed -i '$ d' "$text"
printf 'X\n' >> "$text"
measure 'tokens and grammar, up to a word that is not expected' compile
sed -i '$ d' "$text"
printf 'SCHEDULE S1 :\nEND\n' >> "$text"
measure 'tokens, grammar and checks, up to a stream that stands twice' compile
