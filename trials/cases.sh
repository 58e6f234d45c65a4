#!/usr/bin/env bash
# Runs the program on each case, and compares its exit status and every byte that it writes with what the case wants.
# A case is a folder cases/NAME. `args` has the words, one a line; `stdin` is the input and `stdout` what must be
# written, each empty where it is missing; `status` is the exit status, 0 where it is missing. In place of `stdin` and
# `stdout` may stand a bash script, `make-stdin` or `make-stdout`, that writes it. It runs in the case's folder, and TWS
# names the program there. `program` has the name of a crate whose program is run in place of this one. `make-files` is a
# bash script that writes files in the folder in which the program runs; TOP names the top folder there.
# For each case that fails it says what differs first. The last line is `cases: N passed, M failed`, and the status is 1
# where one failed or none was found.
# Usage: trials/cases.sh [PROGRAM] [NAME..]. PROGRAM is named from the top folder on; with names, only these cases run.
set -u
export LC_ALL=C
cd "$(dirname "$0")/.." || exit 1
TWS=${1:-crates/tws_program/out/tws_program}
if [ $# -gt 0 ]; then
  shift
fi
if [ ! -x "$TWS" ]; then
  echo "there is no program $TWS" >&2
  exit 1
fi
case "$TWS" in
  /*) ;;
  *) TWS=$PWD/$TWS ;;
esac
export TWS
top=$PWD
cases=$top/cases
room=$(mktemp -d) || exit 1
trap 'rm -rf "$room"' EXIT
mkdir "$room/run"

# part CASE NAME: puts into `part` where the case's stdin or stdout stands
part() {
  part=$1/$2
  if [ -f "$1/make-$2" ]; then
    part=$room/$2
    (cd "$1" && timeout 60 bash "make-$2") > "$part"
  elif [ ! -f "$part" ]; then
    part=/dev/null
  fi
}

# shown LINE STATUS: a line, by what was read and whether a line feed ended it
shown() {
  if [ "$2" -eq 0 ]; then
    echo "'${1:0:160}'"
  elif [ -n "$1" ]; then
    echo "'${1:0:160}' without a line feed"
  else
    echo nothing
  fi
}

# difference WANTED GOT: the first line in which two files differ
difference() {
  local number=0 wanted got more_wanted more_got
  while :; do
    number=$((number + 1))
    IFS= read -r wanted <&3
    more_wanted=$?
    IFS= read -r got <&4
    more_got=$?
    if [ "$wanted" != "$got" ] || [ "$more_wanted" -ne 0 ] || [ "$more_got" -ne 0 ]; then
      break
    fi
  done 3< "$1" 4< "$2"
  echo "line $number is $(shown "$got" "$more_got"), and $(shown "$wanted" "$more_wanted") is wanted"
}

# fails CASE: puts into `fault` what is wrong with the case, nothing where it passes
fails() {
  local words=() word input status wanted=0 program=$TWS name
  fault=
  if [ -f "$1/program" ]; then
    read -r name < "$1/program"
    program=$top/crates/$name/out/$name
    if [ ! -x "$program" ]; then
      fault="there is no program $name"
      return
    fi
  fi
  while IFS= read -r word || [ -n "$word" ]; do
    words+=("$word")
  done < "$1/args"
  if [ -f "$1/status" ]; then
    read -r wanted < "$1/status"
  fi
  if ! part "$1" stdin; then
    fault="make-stdin fails"
    return
  fi
  input=$part
  if [ -f "$1/make-files" ]; then
    rm -rf "$room/run" && mkdir "$room/run"
    if ! (cd "$room/run" && TOP=$top timeout 60 bash "$1/make-files"); then
      fault="make-files fails"
      return
    fi
  fi
  (cd "$room/run" && timeout 60 "$program" ${words[@]+"${words[@]}"}) < "$input" > "$room/got"
  status=$?
  if ! part "$1" stdout; then
    fault="make-stdout fails"
  elif ! cmp -s "$part" "$room/got"; then
    fault=$(difference "$part" "$room/got")
  fi
  if [ "$status" -ne "$wanted" ]; then
    fault="the status is $status, and $wanted is wanted${fault:+; $fault}"
  fi
}

if [ $# -eq 0 ]; then
  cd "$cases" && set -- *
fi
passed=0
failed=0
for name; do
  if [ ! -f "$cases/$name/args" ]; then
    fault="there is no such case"
  else
    fails "$cases/$name"
  fi
  if [ -z "$fault" ]; then
    passed=$((passed + 1))
  else
    failed=$((failed + 1))
    echo "$name: $fault"
  fi
done
echo "cases: $passed passed, $failed failed"
[ "$passed" -gt 0 ] && [ "$failed" -eq 0 ]
