#!/usr/bin/env bash
# Serves one real node on a loopback port: asks it for the plan of a day, sees its job run, and shuts it down. It ends
# with 0 where each answer is the one that is due, and else with 1 and what came in its place. It takes a second or two,
# and some 30 where a node does not answer.
# Usage: trials/smoke.sh [PROGRAM]. PROGRAM is named from the top folder on, as out/quick/tws, which trials/quick.sh makes.
set -u
cd "$(dirname "$0")/.." || exit 1
tws=${1:-crates/tws_program/out/tws_program}
if [ ! -x "$tws" ]; then
  echo "there is no program $tws" >&2
  exit 1
fi
case "$tws" in
  /*) ;;
  *) tws=$PWD/$tws ;;
esac
room=$(mktemp -d) || exit 1
node=
# the node is ended by its own number, and only while it is not waited for
finish() {
  if [ -n "$node" ]; then
    kill -9 "$node" 2> /dev/null
    wait "$node" 2> /dev/null
  fi
  rm -rf "$room"
}
trap finish EXIT
cd "$room" || exit 1

# how many seconds all waiting may last
most=25

# free_port: a port of this machine on which nobody listens
free_port() {
  local try port
  for try in 1 2 3 4 5 6 7 8 9; do
    port=$((20000 + (RANDOM + try) % 12000))
    if ! (exec 3<> "/dev/tcp/127.0.0.1/$port") 2> /dev/null; then
      echo "$port"
      return 0
    fi
  done
  return 1
}

if ! port=$(free_port); then
  echo "no free port was found" >&2
  exit 1
fi
cat > defs.txt <<DEFINITIONS
CPUNAME MDM OS UNIX NODE 127.0.0.1 TCPADDR $port DOMAIN MASTERDM FOR MAESTRO TYPE MANAGER END
DOMAIN MASTERDM MANAGER MDM ISMASTER END
SCHEDULE MDM#S ON EVERYDAY :
J DOCOMMAND "true"
END
DEFINITIONS

# ask LINE: what the node replies
ask() {
  timeout 5 "$tws" ask MDM "$1" < defs.txt
}

# comes LINE TEXT: the reply to the line is this text, at once or a little later
comes() {
  local said=
  while [ "$SECONDS" -lt "$most" ]; do
    if said=$(ask "$1") && [ "$said" = "$2" ]; then
      echo "$1: $said"
      return 0
    fi
    sleep 0.1
  done
  echo "$1 is answered '$said', and not '$2'" >&2
  return 1
}

# is LINE TEXT: the reply to the line, which is asked once, is this text
is() {
  local said
  if said=$(ask "$1") && [ "$said" = "$2" ]; then
    echo "$1: $said"
    return 0
  fi
  echo "$1 is answered '$said', and not '$2'" >&2
  return 1
}

# ends: the node ends with status 0 and has written nothing
ends() {
  local status
  while kill -0 "$node" 2> /dev/null; do
    if [ "$SECONDS" -ge "$most" ]; then
      echo "the node does not end" >&2
      return 1
    fi
    sleep 0.1
  done
  wait "$node"
  status=$?
  node=
  if [ "$status" -ne 0 ] || [ -s node.log ]; then
    echo "the node ended with status $status and wrote '$(cat node.log)'" >&2
    return 1
  fi
}

# so many turns are enough, and a node that nobody ends goes by itself
"$tws" node MDM 2000 < defs.txt > node.log 2>&1 &
node=$!

comes showcpus '' || exit 1
is 'jnextplan 12/26/2003' 'plan 1' || exit 1
comes showjobs 'job 1 MDM#S.J SUCC 1' || exit 1
comes showschedules 'stream 1 MDM#S SUCC' || exit 1
is shutdown shutdown || exit 1
ends || exit 1
if [ "$(head -c 4 MDM.msg)" != TWSM ]; then
  echo "MDM.msg is no message file" >&2
  exit 1
fi
echo "a node made a plan, ran its job and was shut down"
