#!/usr/bin/env bash
# Prints how much processor time an empty turn of a real node takes, without a plan and with one of 4,096 streams and
# 16,384 jobs that all wait for the answer to a prompt: the difference of two runs of one node, divided by the turns
# between them. A turn in which nothing comes waits besides, so the runs last about a minute. It judges nothing.
# Usage: bench/turns.sh. TWS may name another program, from the top folder on.
set -eu
export LC_ALL=C
cd "$(dirname "$0")/.."
tws=${TWS:-crates/tws_program/out/tws_program}
if [ ! -x "$tws" ]; then
  echo "there is no program $tws" >&2
  exit 1
fi
case "$tws" in
  /*) ;;
  *) tws=$PWD/$tws ;;
esac
few=20
many=520
room=$(mktemp -d)
node=
# the node is ended by its own number, and only while it is not waited for
finish() {
  if [ -n "$node" ]; then
    kill -9 "$node" 2> /dev/null || true
    wait "$node" 2> /dev/null || true
  fi
  rm -rf "$room"
}
trap finish EXIT
cd "$room"

# a port on which nobody listens
for try in 1 2 3 4 5 6 7 8 9; do
  port=$((20000 + (RANDOM + try) % 12000))
  if ! (exec 3<> "/dev/tcp/127.0.0.1/$port") 2> /dev/null; then
    break
  fi
done

# a master with so many streams of four jobs each: the first stream waits for a prompt, each other one for the one before
awk -v port="$port" -v streams=4096 'BEGIN {
  print "CPUNAME MDM OS UNIX NODE 127.0.0.1 TCPADDR " port " DOMAIN MASTERDM FOR MAESTRO TYPE MANAGER END"
  print "DOMAIN MASTERDM MANAGER MDM ISMASTER END"
  print "$PROMPT\nNIGHT \"Shall the night begin?\""
  for (s = 1; s <= streams; s++) {
    print "SCHEDULE S" s " ON EVERYDAY " (s > 1 ? "FOLLOWS S" (s - 1) : "PROMPT NIGHT") " :"
    for (j = 1; j <= 4; j++) print "J" j " DOCOMMAND \"true\"" (j > 1 ? " FOLLOWS J" (j - 1) : "")
    print "END"
  }
}' > defs.txt

# spent TURNS: how many milliseconds of processor time a node spends that takes so many turns
spent() {
  local TIMEFORMAT='%3U %3S' times
  times=$( { time "$tws" node MDM "$1" < defs.txt > node.log 2>&1 || true; } 2>&1)
  if [ "$(cat node.log)" != 'turns spent' ]; then
    echo "the node wrote: $(cat node.log)" >&2
    return 1
  fi
  awk -v times="$times" 'BEGIN { split(times, t, " "); printf "%d\n", (t[1] + t[2]) * 1000 + 0.5 }'
}

# measure NAME: the processor time of a turn of the node that stands in this folder
measure() {
  local short long
  short=$(spent "$few")
  long=$(spent "$many")
  awk -v name="$1" -v short="$short" -v long="$long" -v turns="$((many - few))" 'BEGIN {
    printf "%s: %.3f ms for an empty turn", name, (long - short) / turns
    printf " (%d ms for %d turns more, behind %d ms)", long - short, turns, short
  }'
  if [ -x /usr/bin/time ]; then
    /usr/bin/time -o memory.txt -f %M "$tws" node MDM 1 < defs.txt > node.log 2>&1 || true
    printf ', %s KB\n' "$(tail -n 1 memory.txt)"
  else
    printf '\n'
  fi
}

# ask LINE: what the node replies
ask() {
  "$tws" ask MDM "$1" < defs.txt
}

measure 'a node without a plan'

"$tws" node MDM 4294967295 < defs.txt > node.log 2>&1 &
node=$!
for try in 1 2 3 4 5 6 7 8 9 10; do
  if ask showcpus > /dev/null; then
    break
  fi
  sleep 0.5
done
reply=$(ask 'jnextplan 12/26/2003' || true)
if [ "$reply" != 'plan 1' ]; then
  echo "jnextplan 12/26/2003 is answered: $reply" >&2
  exit 1
fi
reply=$(ask shutdown || true)
if [ "$reply" != shutdown ]; then
  echo "shutdown is answered: $reply" >&2
  exit 1
fi
wait "$node"
node=

measure 'a node with a plan of 4,096 streams and 16,384 jobs'
