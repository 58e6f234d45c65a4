#!/usr/bin/env bash
# Jobs of a real node on a loopback port, as the system sees them. It must see: that what a launch writes stands in its
# own file, with its surroundings; that `kill` ends what the job has started, also what is in a session of its own; that
# a launch which outlives its node is told of in the log, and that a rerun ends what is left of it first; and that each
# entry is in the log with its place in the file.
# It ends with 0, or with 1 and what came in place of what was due. It takes some five seconds; the gate runs it.
# Usage: trials/jobs.sh [PROGRAM]. PROGRAM is named from the top folder on, as out/quick/tws. It needs `setsid` and /proc.
set -u
cd "$(dirname "$0")/.." || exit 1
tws=${1:-crates/tws_program/out/tws_program}
if [ ! -x "$tws" ]; then
  echo "there is no program $tws" >&2
  exit 1
fi
case "$tws" in
  /*) ;;
  *) tws=$PWD/$tws ;;
esac
room=$(mktemp -d) || exit 1
node=
# the node is ended by its own number, and only while it is not waited for; what its jobs left ends by itself
finish() {
  if [ -n "$node" ]; then
    kill -9 "$node" 2> /dev/null
    wait "$node" 2> /dev/null
  fi
  rm -rf "$room"
}
trap finish EXIT
cd "$room" || exit 1

# how many seconds all waiting may last
most=60

# free_port: a port of this machine on which nobody listens
free_port() {
  local try port
  for try in 1 2 3 4 5 6 7 8 9; do
    port=$((20000 + (RANDOM + try) % 12000))
    if ! (exec 3<> "/dev/tcp/127.0.0.1/$port") 2> /dev/null; then
      echo "$port"
      return 0
    fi
  done
  return 1
}

fail() {
  echo "$*" >&2
  tail -n 20 MDM.log >&2
  exit 1
}

port=$(free_port) || fail "no free port was found"
cat > defs.txt << DEFINITIONS
CPUNAME MDM OS UNIX NODE 127.0.0.1 TCPADDR $port DOMAIN MASTERDM FOR MAESTRO TYPE MANAGER END
DOMAIN MASTERDM MANAGER MDM ISMASTER END
SCHEDULE MDM#S ON EVERYDAY :
TELLS DOCOMMAND "echo \$TWS_NODE \$TWS_JOB \$TWS_LAUNCH; echo wrong 1>&2"
FORKS DOCOMMAND "setsid sleep 50 & echo \$! > away.pid; sleep 50 & echo \$! > forks.pid; wait"
LOST DOCOMMAND "echo began >> lost.txt; test \$TWS_LAUNCH -gt 1 || sleep 50; echo ended >> lost.txt"
HALF DOCOMMAND "test \$TWS_LAUNCH -gt 1 && exit; sleep 50 & echo \$! > half.pid; until test -e go; do sleep 0.1; done"
END
DEFINITIONS

ask() {
  timeout 5 "$tws" ask MDM "$1" < defs.txt
}

# comes TEXT: the listing of the jobs has this text, at once or a little later
comes() {
  local said=
  while [ "$SECONDS" -lt "$most" ]; do
    if said=$(ask showjobs) && [[ "$said" == *"$1"* ]]; then
      return 0
    fi
    sleep 0.1
  done
  fail "the jobs are '$said', and not '$1'"
}

# logged TEXT: a line of the log has this text, at once or a little later
logged() {
  while [ "$SECONDS" -lt "$most" ]; do
    if grep -q -- "$1" MDM.log; then
      return 0
    fi
    sleep 0.1
  done
  fail "no line of the log has '$1'"
}

# written FILE: a job has written to this file, at once or a little later
written() {
  until [ -s "$1" ]; do
    [ "$SECONDS" -lt "$most" ] || fail "no job writes to $1"
    sleep 0.05
  done
}

start() {
  "$tws" node MDM 4000000 < defs.txt > said.txt 2>&1 &
  node=$!
  until ask showcpus > /dev/null; do
    [ "$SECONDS" -lt "$most" ] || fail "the node does not answer"
    sleep 0.1
  done
}

start
ask 'jnextplan 12/26/2003' > /dev/null || fail "no plan was made"
comes 'job 1 MDM#S.TELLS SUCC 1'
if [ "$(cat MDM.out/1.1)" != "$(printf 'MDM 1 1\nwrong')" ]; then
  fail "the first launch wrote '$(cat MDM.out/1.1)'"
fi
if [ "$(stat -c %a MDM.out/1.1)" != 600 ]; then
  fail "others may read what a job wrote"
fi

# what the job started ends with it
comes 'job 2 MDM#S.FORKS EXEC 1'
written forks.pid
ask 'kill MDM#S.FORKS' > /dev/null
comes 'job 2 MDM#S.FORKS ABEND 1'
logged ' killed job=2 launch=1 process='
logged ' ended job=2 launch=1 signal=9'

# the node goes without a word, and launches go on without it: of one the shell ends meanwhile, and not what it has started
comes 'job 3 MDM#S.LOST EXEC 1'
comes 'job 4 MDM#S.HALF EXEC 1'
written lost.txt
written half.pid
kill -9 "$node"
wait "$node" 2> /dev/null
node=
touch go
sleep 0.5
start
for job in '3 MDM#S.LOST' '4 MDM#S.HALF'; do
  comes "job $job ABEND 1"
  logged " left job=${job% *} launch=1 process=[0-9]"
  ask "rr ${job#* }" > /dev/null
  comes "job $job SUCC 2"
  logged " cleared job=${job% *} launch=1"
done
if [ "$(cat lost.txt)" != "$(printf 'began\nbegan\nended')" ]; then
  fail "a job was done twice: $(cat lost.txt)"
fi
# (a process that nobody has waited for yet is still there as a Z)
for started in forks away half; do
  case $(sed 's/.*) //' "/proc/$(cat "$started.pid")/stat" 2> /dev/null) in
    '' | Z*) ;;
    *) fail "what the job of $started.pid has started goes on" ;;
  esac
done
for rest in MDM.out/*.pid; do
  if [ -e "$rest" ]; then
    fail "$rest is left"
  fi
done

# each record of the file is in the log once, with its place
python3 - << 'PROGRAM' || fail "the log does not tell what was kept"
import re
data = open("MDM.msg", "rb").read()
places, at = [], 8
while data[at] == 1:
    size = int.from_bytes(data[at + 1:at + 5], "big")
    places.append((at, size))
    at += 5 + size
told = [(int(m[1]), int(m[2])) for m in re.finditer(r"^\S+Z kept at=(\d+) bytes=(\d+)$", open("MDM.log").read(), re.M)]
assert told == places, (told, places)
PROGRAM
ask shutdown > /dev/null
while kill -0 "$node" 2> /dev/null; do
  [ "$SECONDS" -lt "$most" ] || fail "the node does not end"
  sleep 0.05
done
wait "$node"
status=$?
node=
if [ "$status" -ne 0 ] || [ -s said.txt ]; then
  fail "the node ended with status $status and wrote '$(cat said.txt)'"
fi
echo "jobs wrote to their own files, and nothing of them ran twice or went on after a kill"
