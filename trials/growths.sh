#!/usr/bin/env bash
# Runs in which one growth of memory is refused, another one in each run. They show that a call for which there is no
# memory leaves its object as it was, and that the call, made again, gives what it gives in a run in which nothing is
# refused. They prove nothing: this is run by hand, and the gate does not run it.
#
# A program of its own (trials/growths) is proved and built in a folder that is removed again. Its parts are calls of
# objects:
#   lists   lists, texts and counts of base_types: push, reserve, copies, and texts that are made
#   frames  frames that are written, and the decoder, over a stream in pieces
#   mail    links, acknowledgements, and what is to be sent
#   owners  the entries that are kept, taken by copy and as they are
#   index   the index of the best job. Where it has no memory for an entry it is made anew, which is all that it
#           promises, and until then it answers a job that is ready, or none
#   nodes   a night of three nodes: plans, orders, prompts, a file, a switch of managers, and a node that begins again;
#           and each node made anew of what it kept
#   world   the same night as steps of the whole network, then packets that come again, nodes that stop in a step, and
#           the parts of a report
# Two parts more need no such program:
#   nights  the built program probes over nights of cases/ that make a node or a network, each growth from its start to
#           its end refused. A question that is answered with want of memory is asked again
#   words   the built program tws over small cases of cases/, each growth from its start to its end refused. It ends with
#           status 9 then and writes nothing, or as it does where nothing is refused
# Around each call the program says by growths of odd sizes that growths count, and that they count no more.
# trials/growths/refuse.c stands between it and the C library, and refuses the growth whose number a run names. So each
# growth that counts is one of the calls, and what the program itself needs is there. A refused growth meets
# - a call that answers that there is no memory, and is made again; or
# - a call that goes on without that memory, as a node does whose index of the best job has none.
# Behind a call that was refused, the object is in the state of before, and the entries of Owners, of a node and of each
# node of the network are, part by part, those that they were. They tell, list and show what they did before, and what a
# new object does that is made of them. What each call gives from there to the end, and the state of its object behind
# it, is as in the run without a refusal. Room that a list has taken is not seen, and nothing is said of it.
#
# The program is proved by `rt run`, over the libraries that `rt check` and `rt lib` left in crates/*/out. What is not there
# is proved anew, which takes hours.
#
# Usage: trials/growths.sh [PART..]; with no part all are run. Each growth is refused, with EVERY=20 one of 20, and
# SHIFT=3 begins three growths further on.
# For each part it prints how many growths there are, what those met that were refused, and what was wrong. The last line
# is `growths: N refused, M wrong`, and the status is 1 where M is not 0 or a part could not be run.
set -u
export LC_ALL=C
cd "$(dirname "$0")/.." || exit 1
parts='lists frames mail owners index nodes world nights words'
if [ $# -eq 0 ]; then
  # each word is a part
  # shellcheck disable=SC2086
  set -- $parts
fi
for part; do
  case " $parts " in
    *" $part "*) ;;
    *)
      echo "there is no part $part" >&2
      exit 1
      ;;
  esac
done
room=$(mktemp -d) || exit 1
room=$(cd "$room" && pwd -P) || exit 1
trap 'rm -rf "$room"' EXIT

# below NAME..: these crates and all below them
below() {
  awk -v wanted="$*" '
    /^#/ { next }
    { name = $1; sub(/:$/, "", name); rest = $0; sub(/^[^:]*:/, "", rest); uses[name] = rest }
    END {
      count = split(wanted, todo, " ")
      for (i = 1; i <= count; i++) {
        name = todo[i]
        if (!(name in uses) || (name in seen)) continue
        seen[name] = 1
        print name
        more = split(uses[name], others, " ")
        for (k = 1; k <= more; k++) todo[++count] = others[k]
      }
    }' crates.txt
}

# The program, beside a copy of the crates below it, as a repository of its own.
uses='base_types model network_tree owner_fold mailman_core dependencies ready_index agent_core network_world mail_frames test_builders'
program=$room/copy/crates/growths
make_program() {
  local crate part file
  mkdir -p "$program/src" "$room/copy/.git" && cp HANDLES "$room/copy" || return 1
  # shellcheck disable=SC2086
  for crate in $(below $uses); do
    mkdir "$room/copy/crates/$crate" || return 1
    for part in src specs proofs; do
      [ ! -d "crates/$crate/$part" ] || cp -r "crates/$crate/$part" "$room/copy/crates/$crate" || return 1
    done
    if [ -f "crates/$crate/out/rlib/stamp" ]; then
      mkdir "$room/copy/crates/$crate/out" && cp -r "crates/$crate/out/rlib" "$room/copy/crates/$crate/out" || return 1
    fi
    grep -E "^$crate( [^:]*)?:" crates.txt >> "$room/copy/crates.txt" || return 1
  done
  echo "growths: $uses" >> "$room/copy/crates.txt"
  for file in trials/growths/*.txt; do
    cp "$file" "$program/src/$(basename "$file" .txt).rt" || return 1
  done
}

# fail LOG: tells why nothing could be run
fail() {
  tail -n 20 "$1"
  echo "the program could not be built"
  exit 1
}

built=()
has_nights=
has_words=
for part; do
  case "$part" in
    nights) has_nights=1 ;;
    words) has_words=1 ;;
    *) built+=("$part") ;;
  esac
done
cc -O2 -Wall -shared -fPIC -o "$room/refuse.so" trials/growths/refuse.c > "$room/log" 2>&1 || fail "$room/log"
status=0
if [ ${#built[@]} -gt 0 ]; then
  make_program || exit 1
  TIMEFORMAT='the program was proved and built in %U seconds of a processor'
  time (cd "$program" && rt run < /dev/null > "$room/log" 2>&1)
  [ -x "$program/out/growths" ] || fail "$room/log"
  python3 trials/growths/judge.py "$program/out/growths" "$room/refuse.so" "${built[@]}" || status=1
fi
if [ -n "$has_nights" ]; then
  python3 trials/growths/nights.py "${PROBE:-crates/probes/out/probes}" "$room/refuse.so" || status=1
fi
if [ -n "$has_words" ]; then
  python3 trials/growths/words.py "${TWS:-crates/tws_program/out/tws_program}" "$room/refuse.so" || status=1
fi
exit $status
