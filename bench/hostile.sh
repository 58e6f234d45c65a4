#!/usr/bin/env bash
# Prints how many seconds of processor time the worst texts take that the limits allow, each of nearly 16 MB: dates,
# offsets, free days, runs of them, lists, circles, chains, names and nesting for `compile` and `plan`, records without
# steps for `replay`, and histories for `audit`. A history is made of a record by the program itself, and where that takes
# longer than LIMIT the audit is left out. A word that takes more than LIMIT seconds, 100 where nothing is set, is ended,
# and told with its status. It judges nothing.
# Usage: bench/hostile.sh [PROGRAM [BYTES [KIND..]]]; without a program it builds the one of this repository.
set -eu
cd "$(dirname "$0")/.."
program=${1:-}
bytes=${2:-16000000}
limit=${LIMIT:-100}
shift $(($# < 2 ? $# : 2))
if [ -z "$program" ]; then
  (cd crates/tws_program && rt run -- compile < ../../examples/bank.txt > /dev/null 2>&1)
  program=crates/tws_program/out/tws_program
fi
folder=$(mktemp -d)
trap 'rm -rf "$folder"' EXIT

# What the texts share: a count of bytes, a master, dates one after another, and streams of one job.
shared='
  function put(text) { printf "%s", text; size += length(text) }
  function network() {
    put("CPUNAME M OS UNIX NODE m.example DOMAIN D FOR MAESTRO TYPE MANAGER END\nDOMAIN D MANAGER M ISMASTER END\n")
  }
  function leap(y) { return y % 4 == 0 && (y % 100 != 0 || y % 400 == 0) }
  function length_of(m, y) {
    if (m == 2) return leap(y) ? 29 : 28
    return m == 4 || m == 6 || m == 9 || m == 11 ? 30 : 31
  }
  # so many bytes of dates, on different lines, from a year on
  function dates(year, most,   y, m, d, line) {
    m = d = 1; y = year
    while (size + 90 < most && y <= 9999) {
      line = ""
      for (n = 0; n < 8 && y <= 9999; n++) {
        line = line sprintf(" %02d/%02d/%04d", m, d, y)
        if (++d > length_of(m, y)) { d = 1; if (++m > 12) { m = 1; y++ } }
      }
      put(line "\n")
    }
  }
  # streams with these ONs up to so many bytes
  function streams(ons, most,   s) {
    for (s = 1; size + length(ons) + 60 < most; s++) put("SCHEDULE S" s " " ons " :\nEND\n")
  }
  # one stream with these ONs again and again
  function again(on, most) {
    put("SCHEDULE S\n")
    while (size + length(on) + 10 < most) put(on "\n")
    put(":\nEND\n")
  }
'

# text KIND: the text of a kind
text() {
  awk -v kind="$1" -v bytes="$bytes" "$shared"'BEGIN {
    network()
    half = bytes / 2
    if (kind == "dates") { put("$CALENDAR\nC\n"); dates(1970, bytes) }
    if (kind == "calendars") { put("$CALENDAR\n"); for (i = 0; size + 60 < bytes; i++) put("C" i " 12/25/2003\n") }
    if (kind == "used") { put("$CALENDAR\nC\n"); dates(2004, half); again("ON C", bytes) }
    if (kind == "taken_out") { put("$CALENDAR\nC\n"); dates(2004, half); streams("ON EVERYDAY EXCEPT C", bytes) }
    if (kind == "offsets") { put("$CALENDAR\nC\n"); dates(2004, half); again("ON C +999 WORKDAYS", bytes) }
    if (kind == "offsets_back") { put("$CALENDAR\nC\n"); dates(1970, half); again("ON C -999 WEEKDAYS", bytes) }
    if (kind == "offsets_days") { put("$CALENDAR\nC\n"); dates(2004, half); again("ON C +999 DAYS", bytes) }
    if (kind == "offsets_free") {
      put("$CALENDAR\nHOLIDAYS\n"); dates(1970, half); put("C 01/01/1970\n"); again("ON C +1 WORKDAYS", bytes)
    }
    if (kind ~ /^run_/) {
      # the plan is for the day before a run of free days, in which no date stands
      # (`past`: a shorter run, behind which the next day of the rule stands)
      most = half
      if (kind == "run_weekly_past") most = 73000
      if (kind == "run_daily_past") most = 6900
      put("$CALENDAR\nHOLIDAYS\n"); dates(1971, most); put("C 12/31/9999\n")
      if (kind == "run_dates") again("ON C FDPREV", bytes)
      if (kind == "run_streams") streams("ON C FDPREV", bytes)
      if (kind == "run_offsets") again("ON C -999 WEEKDAYS FDPREV", bytes)
      if (kind == "run_weekly") again("ON RUNCYCLE A VALIDFROM 01/01/1970 \"FREQ=WEEKLY;INTERVAL=999;BYDAY=MO\" FDPREV", bytes)
      if (kind == "run_weekly_past") again("ON RUNCYCLE A VALIDFROM 01/05/1970 \"FREQ=WEEKLY;INTERVAL=999;BYDAY=MO\" FDPREV", bytes)
      if (kind == "run_daily_past") again("ON RUNCYCLE A VALIDFROM 01/01/1970 \"FREQ=DAILY;INTERVAL=999\" FDPREV", bytes)
      if (kind == "run_monthly") again("ON RUNCYCLE A VALIDFROM 02/01/1970 \"FREQ=MONTHLY;INTERVAL=12;BYMONTHDAY=31\" FDPREV", bytes)
      if (kind == "run_daily") again("ON RUNCYCLE A VALIDFROM 01/01/1970 \"FREQ=DAILY;INTERVAL=999\" FDPREV", bytes)
    }
    # 200 calendars in 200 streams, each of which names all of them
    if (kind == "offsets_many") {
      put("$CALENDAR\n")
      for (c = 1; c <= 200; c++) { put("C" c "\n"); dates(1970 + c % 50 * 150, (bytes - 1000000) * c / 200) }
      for (s = 1; s <= 200; s++) {
        put("SCHEDULE S" s "\n")
        for (c = 1; c <= 200 && size + 40 < bytes; c++) put("ON C" c " +999 WORKDAYS\n")
        put(":\nEND\n")
      }
    }
    # free days of their own for each stream
    if (kind == "free_days") { put("$CALENDAR\nC\n"); dates(1970, half); streams("FREEDAYS C ON WORKDAYS EXCEPT EVERYDAY", bytes) }
    if (kind == "free_offsets") { put("$CALENDAR\nC\n"); dates(1970, half); streams("FREEDAYS C ON C +999 WORKDAYS", bytes) }
    if (kind == "free_many") {
      put("$CALENDAR\n")
      for (c = 0; c < 200; c++) { put("C" c "\n"); dates(1970 + c % 50 * 150, half * (c + 1) / 200) }
      for (s = 0; size + 60 < bytes; s++) put("SCHEDULE S" s " FREEDAYS C" s % 200 " ON C" (s + 1) % 200 " +999 WORKDAYS :\nEND\n")
    }
    if (kind == "rules") again("ON \"FREQ=MONTHLY;BYMONTHDAY=31,31,31,31\"", bytes)
    if (kind == "items") { put("SCHEDULE S ON MO"); while (size + 20 < bytes) put(",\nTU"); put(" :\nEND\n") }
    if (kind == "chain") for (s = 1; size + 60 < bytes; s++) put("SCHEDULE S" s " ON REQUEST" (s > 1 ? " FOLLOWS S" (s - 1) : "") " :\nEND\n")
    if (kind == "chain_up") for (s = 1; size + 60 < bytes; s++) put("SCHEDULE S" s " ON REQUEST" (size + 120 < bytes ? " FOLLOWS S" (s + 1) : "") " :\nEND\n")
    if (kind == "circle") for (s = 1; size + 60 < bytes; s++) put("SCHEDULE S" s " FOLLOWS S" (size + 120 < bytes ? s + 1 : 1) " :\nEND\n")
    if (kind == "circles") for (s = 1; size + 90 < bytes; s += 2) put("SCHEDULE S" s " FOLLOWS S" (s + 1) " :\nEND\nSCHEDULE S" (s + 1) " FOLLOWS S" s " :\nEND\n")
    if (kind == "job_chain") {
      put("SCHEDULE S ON REQUEST :\n")
      for (j = 1; size + 60 < bytes; j++) put("J" j " DOCOMMAND \"a\"" (j > 1 ? " FOLLOWS J" (j - 1) : "") "\n")
      put("END\n")
    }
    if (kind == "job_circle") {
      put("SCHEDULE S ON REQUEST :\n")
      for (j = 1; size + 60 < bytes; j++) put("J" j " DOCOMMAND \"a\" FOLLOWS J" (size + 120 < bytes ? j + 1 : 1) "\n")
      put("END\n")
    }
    if (kind == "follows") {
      for (s = 1; s <= 64; s++) put("SCHEDULE S" s " ON REQUEST :\nEND\n")
      for (s = 65; size + 400 < bytes; s++) {
        put("SCHEDULE S" s " ON REQUEST FOLLOWS S1")
        for (f = 2; f <= 64; f++) put(",S" f)
        put(" :\nEND\n")
      }
    }
    if (kind == "too_many") { put("SCHEDULE S ON REQUEST"); while (size + 30 < bytes) put(" OPENS \"f\""); put(" :\nEND\n") }
    if (kind == "list") { put("SCHEDULE S ON REQUEST OPENS \"f\""); while (size + 30 < bytes) put(",\"f\""); put(" :\nEND\n") }
    if (kind == "nesting") {
      put("SCHEDULE S ON REQUEST :\n")
      open = shut = ""
      for (i = 0; i < 2000; i++) { open = open "("; shut = shut ")" }
      for (j = 1; size + 4100 < bytes; j++) put("J" j " DOCOMMAND \"a\" RCCONDSUCC \"" open "RC=0" shut "\"\n")
      put("END\n")
    }
    if (kind == "conditions") {
      put("SCHEDULE S ON REQUEST :\n")
      long = "RC=0"
      for (i = 0; i < 31; i++) long = long " OR RC=1"
      for (j = 1; size + 400 < bytes; j++) put("J" j " DOCOMMAND \"a\" RCCONDSUCC \"" long "\"\n")
      put("END\n")
    }
    if (kind == "jobs") { put("$JOBS\n"); for (j = 1; size + 60 < bytes; j++) put("M#J" j " DOCOMMAND \"a\"\n") }
    if (kind == "resources") { put("$RESOURCE\n"); for (j = 1; size + 60 < bytes; j++) put("M#R" j " 1\n") }
    if (kind == "prompts") { put("$PROMPT\n"); for (j = 1; size + 60 < bytes; j++) put("P" j " \"a\"\n") }
    if (kind == "domains") for (s = 1; size + 60 < bytes; s++) put("DOMAIN D" s " MANAGER M PARENT D" (s + 1) " END\n")
    if (kind == "domains_down") for (s = 1; size + 60 < bytes; s++) put("DOMAIN D" s " MANAGER M PARENT D" (s > 1 ? s - 1 : "") " END\n")
    if (kind == "cpus") for (s = 1; size + 90 < bytes; s++) put("CPUNAME C" s " OS UNIX NODE a DOMAIN D FOR MAESTRO TYPE FTA END\n")
    if (kind == "flags") {
      put("CPUNAME N OS UNIX NODE a DOMAIN D FOR MAESTRO TYPE FTA\n")
      while (size + 60 < bytes) put("AUTOLINK ON\n")
    }
    if (kind == "same") while (size + 60 < bytes) put("SCHEDULE S :\nEND\n")
    if (kind == "comments") while (size + 60 < bytes) put("# a\n")
    if (kind == "word") { put("SCHEDULE "); while (size + 60 < bytes) put("aaaaaaaa") }
    if (kind == "text") { put("SCHEDULE S DESCRIPTION \""); while (size + 60 < bytes) put("\\\\\\\\\\\\\\\\") }
    if (kind == "marks") while (size + 60 < bytes) put("((((((((")
    # many dependencies, each of its own clause
    if (kind == "clauses_alone") { put("SCHEDULE S ON REQUEST"); while (size + 30 < bytes) put(" PROMPT \"\""); put(" :\nEND\n") }
    if (kind == "clauses") {
      for (s = 1; s <= 4000; s++) {
        put("SCHEDULE S" s " ON EVERYDAY")
        for (f = 0; f < 64 && size + 8300 < bytes; f++) put(" OPENS \"/" f "\"")
        put(" :\n")
        for (j = 1; j <= 4; j++) put("J" j " DOCOMMAND \"" sprintf("%800s", "a") "\"\n")
        put("END\n")
      }
    }
  }'
}

# record KIND: a record without steps
record() {
  awk -v kind="$1" -v bytes="$bytes" "$shared"'BEGIN {
    if (kind == "plan_lists") {
      # each job follows the 64 before it
      put("$NETWORK\nws M\n$PLAN\n")
      for (s = 0; s < 16 && size + 900000 < bytes; s++) {
        put("stream M S" s "\n")
        for (j = 0; j < 1024; j++) {
          put("job M J" j "\ndo \"a\"\n")
          for (f = j - 64; f < j; f++) if (f >= 0) put("follows J" f "\n")
        }
      }
    }
    if (kind == "plan_streams") {
      put("$NETWORK\nws M\n$PLAN\n")
      long = sprintf("%3000s", "a")
      for (s = 0; s < 4096 && size + 4000 < bytes; s++) {
        put("stream M S" s "\n")
        for (f = s - 40; f < s; f++) if (f >= 0) put("follows M#S" f "\n")
        for (j = 0; j < 4; j++) put("job M J" j "\ndo \"" sprintf("%700s", "a") "\"\n")
      }
    }
    if (kind == "plan_prompts") {
      put("$NETWORK\nws M\n")
      for (r = 0; r < 65535 && size < bytes / 2; r++) put("prompt P" r " \"" sprintf("%100s", "a") "\"\n")
      for (r = 0; r < 65535 && size < bytes; r++) put("res M R" r " 1024\n")
      put("$PLAN\n")
      for (s = 0; s < 4096 && size + 1300 < bytes; s++) {
        put("stream M S" s "\n")
        for (f = 0; f < 32; f++) put("ask P" (s * 32 + f) % 65535 "\nneeds 1 R" (s * 32 + f) % 65535 "\n")
      }
    }
    # each workstation hangs below the next one, and the last below the master
    if (kind == "plan_hops") {
      put("$NETWORK\nws M\n")
      for (w = 1; size + 70 < bytes; w++) put("ws W" w " W" (w + 1) " manager\n")
      put("ws W" w " M manager\n$PLAN\n")
    }
    # hops that go round among the last ones
    if (kind == "plan_round") {
      put("$NETWORK\nws M\n")
      for (w = 1; size + 70 < bytes; w++) put("ws W" w " Z manager\n")
      put("ws Y Z manager\nws Z Y manager\n$PLAN\n")
    }
    # 256 workstations, and each line names the last one
    if (kind == "plan_last") {
      put("$NETWORK\nws M\n")
      for (w = 1; w < 256; w++) put("ws W" w " M\n")
      put("$PLAN\nstream W255 S\n")
      for (j = 0; size + 70 < bytes; j++) put("job W255 J" j "\n")
    }
    if (kind == "plan_sections") {
      put("$NETWORK\nws M\n")
      while (size + 60 < bytes) put("$PLAN\nstream M S\njob M J\n")
    }
    if (kind == "plan_names") {
      put("$NETWORK\nws M\n$PLAN\n")
      for (s = 0; size + 70 < bytes; s++) put("stream M S" s "\n")
    }
    if (kind == "plan_own") {
      # a stream of many jobs, each of which follows one that stands far below
      put("$NETWORK\nws M\n$PLAN\nstream M S\n")
      for (j = 0; size * 2 < bytes; j++) put("job M J" j "\n")
      put("job M K\n")
      for (k = 1; size + 70 < bytes; k++) put("job M K" k "\nfollows J" (j - k) "\n")
    }
    if (kind == "plan_conditions") {
      # conditions as deep as a text may be
      put("$NETWORK\nws M\n$PLAN\nstream M S\n")
      open = shut = ""
      for (i = 0; i < 2000; i++) { open = open "("; shut = shut ")" }
      for (j = 0; size + 4100 < bytes; j++) put("job M J" j "\nsucc \"" open "RC=0" shut "\"\n")
    }
    if (kind == "plan_texts") {
      put("$NETWORK\nws M\n$PLAN\nstream M S\n")
      text = ""
      for (i = 0; i < 4096; i++) text = text "\\\""
      for (j = 0; size + 8300 < bytes; j++) put("job M J" j "\ndo \"" text "\"\n")
    }
    if (kind == "plan_comments") { put("$NETWORK\nws M\n$PLAN\n"); while (size + 60 < bytes) put("\n") }
    put("$STEPS\n")
  }'
}

# steps KIND: a record whose history is audited
steps() {
  awk -v kind="$1" -v bytes="$bytes" "$shared"'BEGIN {
    # an entry takes some 80 bytes of a history, and a plan of one job 250
    put("$NETWORK\nws M\n")
    if (kind == "history_carried") {
      # a plan of many streams, and plans of none that carry them all
      put("carryforward all\n$PLAN\n")
      n = int(bytes / 40000)
      for (s = 0; s < 4090 && size < bytes; s++) put("stream M S" s "\njob M J\n")
      for (p = 0; p < n; p++) put("$PLAN\n")
      put("$STEPS\n")
      for (p = 0; p <= n; p++) put("next\n")
    }
    if (kind == "history_follows") {
      # plans whose jobs all follow their last ones, as large as an entry may be
      put("carryforward no\n")
      for (p = 1; p <= 2; p++) {
        put("$PLAN\nstream M S\n")
        for (j = 0; j < 16340 && size + 1000 < bytes * p / 2; j++) {
          put("job M J" j "\n")
          for (f = 10; f < 50; f++) put("follows K" f "\n")
        }
        for (f = 10; f < 50; f++) put("job M K" f "\n")
      }
      put("$STEPS\nnext\nnext\n")
    }
    if (kind == "history_needs") {
      # open launches, each of which needs nothing of 64 resources. They are an eightieth of those that an input may have,
      # since the time grows with their square
      for (r = 10; r < 74; r++) put("res M R" r " 1\n")
      put("$PLAN\nstream M S\n")
      n = int(bytes / 80000)
      for (j = 0; j < n; j++) {
        put("job M J" j " prio 101\n")
        for (r = 10; r < 74; r++) put("needs 0 R" r "\n")
      }
      put("$STEPS\nnext\n")
      for (t = 0; t < n + 2; t++) put("turn M 1\n")
    }
    if (kind == "history_orders") {
      put("$PLAN\nstream M S\njob M J\n$STEPS\nnext\n")
      for (o = 0; o < bytes / 90; o++) put("type M fence M;" o % 100 "\n")
    }
    if (kind == "history_reruns") {
      put("$PLAN\nstream M S\njob M J\n")
      for (j = 0; j < 64; j++) put("job M K" j "\nfollows J\n")
      put("$STEPS\nnext\n")
      for (t = 1; t < bytes / 400; t++) put("turn M " t "\nturn M " t "\nreap M 0\ntype M rerun M#S.J\nturn M " t "\n")
    }
    if (kind == "history_starts") put("$PLAN\nstream M S\njob M J\n$STEPS\nnext\nturn M 1\nturn M 1\nstarted M 1\n")
  }'
}

# limited WORD..: the program on the text, with so many seconds of processor time
limited() (
  ulimit -t "$limit"
  exec "$program" "$@" < "$folder/text" > "$folder/out" 2> /dev/null
)

# history_of: the history of the record, as the text; it fails where that takes too long
history_of() (
  ulimit -t "$limit"
  exec "$program" history < "$folder/record" > "$folder/text"
)

# measure NAME WORD..: what the program takes with these words
measure() {
  local name=$1 status=0
  shift
  TIMEFORMAT='%U'
  { time limited "$@" || status=$?; } 2> "$folder/time"
  printf '%s, %s: %s bytes, %s s%s\n' "$name" "$1" "$(wc -c < "$folder/text")" "$(tail -n 1 "$folder/time")" \
    "$([ "$status" -eq 0 ] || echo ", status $status $(head -c 60 "$folder/out" | head -n 1)")"
}

kinds=${*:-dates calendars used taken_out offsets offsets_back offsets_days offsets_free offsets_many free_days \
  free_offsets free_many run_dates run_streams run_offsets run_weekly run_weekly_past run_monthly run_daily \
  run_daily_past rules items chain chain_up circle circles job_chain job_circle follows too_many list \
  clauses_alone nesting conditions jobs resources prompts domains domains_down cpus flags same comments word text \
  marks clauses plan_lists plan_streams plan_prompts plan_comments plan_definitions plan_hops plan_round plan_last \
  plan_sections plan_names plan_own plan_conditions plan_texts history history_carried history_follows \
  history_needs history_orders history_reruns history_starts}
for kind in $kinds; do
  case $kind in
    plan_definitions)
      text offsets | sed '1i $DEFINITIONS' > "$folder/text"
      echo '$STEPS' >> "$folder/text"
      measure "$kind" replay
      ;;
    plan_*)
      record "$kind" > "$folder/text"
      measure "$kind" replay
      ;;
    history*)
      if [ "$kind" = history ]; then
        "$program" sample "$((bytes / 215 < 2000 ? bytes / 215 : 2000))" 7 > "$folder/record"
      else
        steps "$kind" > "$folder/record"
      fi
      if ! history_of; then
        echo "$kind: no history"
        continue
      fi
      if [ "$kind" = history_starts ]; then
        awk -v bytes="$bytes" 'BEGIN { for (size = 1000; size < bytes; size += 12) print "start M 1 1" }' >> "$folder/text"
      fi
      measure "$kind" audit
      ;;
    run_*)
      text "$kind" > "$folder/text"
      measure "$kind" compile
      measure "$kind" plan 12/31/1970
      ;;
    *)
      text "$kind" > "$folder/text"
      measure "$kind" compile
      measure "$kind" plan 12/26/2003
      ;;
  esac
done
