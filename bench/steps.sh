#!/usr/bin/env bash
# Prints how long a node takes that holds a plan of many jobs and 100,000 entries: to be restored, for 10,000 turns that
# keep nothing, for 100,000 mails that it keeps, and for 1,000,000 acknowledgements. It judges nothing.
# Usage: bench/steps.sh [JOBS], 16000 without a word. It builds a program of its own in a folder that it removes again.
set -eu
cd "$(dirname "$0")/.."
jobs=${1:-16000}
copy=$(mktemp -d)
trap 'rm -rf "$copy"' EXIT

cp crates.txt HANDLES "$copy"
mkdir -p "$copy/crates/steps_bench/src"
# below NAME: the crates of the repository that a crate stands on, and the crate itself behind them
below() {
  local crate
  for crate in $(sed -n "s/^$1: *//p" crates.txt); do
    [ ! -d "crates/$crate" ] || below "$crate"
  done
  echo "$1"
}
: > "$copy/crates.txt"
for crate in $( (below agent_core; below test_builders) | awk '!seen[$0]++'); do
  mkdir "$copy/crates/$crate"
  for part in src specs proofs; do
    [ ! -d "crates/$crate/$part" ] || cp -r "crates/$crate/$part" "$copy/crates/$crate"
  done
  grep -E "^$crate:" crates.txt >> "$copy/crates.txt"
done
echo 'steps_bench: base_types network_tree agent_core test_builders' >> "$copy/crates.txt"

# the master holds a released stream whose last job waits for a file, and all others follow that job
cat > "$copy/crates/steps_bench/src/main.rt" <<'PROGRAM'
//! Restores a node that holds a plan of jobs that wait, and many events of an agent. A word lets it take turns, mails
//! or acknowledgements. It prints how many entries were kept.
#![tactic(auto)]

use agent_core::{Agent, StepFault};
use base_types::{
    Body, Dep, Deps, Entries, Entry, Feed, Input, Items, JobDoc, JobNo, Local, Moment, NoMemory,
    Seen, SharedDocs, StreamDoc, StreamNo, Text, Ws,
};
use network_tree::Network;
use std::alloc::Global;
use std::{env, io};
use test_builders::{TWO_AGENTS, job, one, plain_net, stream};

const JOBS: u32 = 16000;

const HELD: u32 = 100000;

const M: Ws = Ws(0);

const P: Ws = Ws(1);

fn waiting(alloc: Global, number: u32, dep: Dep) -> Result<JobDoc, NoMemory> {
    let mut doc = job(alloc, number, 0, "J")?;
    let mut deps = Deps::new(alloc);
    deps.push(dep)?;
    doc.deps = deps;
    Ok(doc)
}

fn stream_of_jobs(alloc: Global) -> Result<StreamDoc, NoMemory> {
    let mut doc = stream(alloc, 1, 0, "S")?;
    let last = JOBS + 1;
    for number in 1..last {
        let job = waiting(alloc, number, Dep::FollowsJob(JobNo(last)))?;
        doc.jobs.push(job)?;
    }
    let file = Dep::Outside(Text::of(alloc, "f")?);
    doc.jobs.push(waiting(alloc, last, file)?)?;
    Ok(doc)
}

fn event(w: Ws, place: u32, body: Body) -> Entry {
    Entry {
        feed: Feed::Events(w),
        place,
        body,
    }
}

fn kept(alloc: Global) -> Result<Entries, NoMemory> {
    let mut entries = Items::new(alloc);
    let docs = SharedDocs::of(alloc, one(alloc, stream_of_jobs(alloc)?)?)?;
    let plan = Body::NewPlan(1, Seen::new(alloc), Items::new(alloc), docs);
    entries.push(event(M, 1, plan))?;
    entries.push(event(M, 2, Body::Released(StreamNo(1), Seen::new(alloc))))?;
    for i in 0..HELD {
        entries.push(event(P, i + 1, Body::Clock(Moment(0))))?;
    }
    Ok(entries)
}

/// Takes an input, and tells whether an entry was kept.
fn takes(agent: &mut Agent, input: &Input) -> Result<u32, StepFault> {
    match agent.step(input)?.kept {
        Some(_) => Ok(1),
        None => Ok(0),
    }
}

fn turns(agent: &mut Agent) -> Result<u32, StepFault> {
    let mut count: u32 = 0;
    takes(agent, &Input::Local(Local::Linked(P)))?;
    takes(agent, &Input::Ack(P, Feed::Events(M), 2))?;
    for i in 0..10000u32 {
        let turn = Input::Local(Local::Turn(Moment(u64::from(i))));
        count = count.saturating_add(takes(agent, &turn)?);
    }
    Ok(count)
}

fn mails(agent: &mut Agent) -> Result<u32, StepFault> {
    let mut count: u32 = 0;
    for i in 0..100000u32 {
        let entry = event(P, HELD + 1 + i, Body::Clock(Moment(0)));
        count = count.saturating_add(takes(agent, &Input::Mail(P, entry))?);
    }
    Ok(count)
}

fn acknowledgements(agent: &mut Agent) -> Result<u32, StepFault> {
    let mut count: u32 = 0;
    for i in 0..1000000u32 {
        count = count.saturating_add(takes(agent, &Input::Ack(P, Feed::Events(M), i))?);
    }
    Ok(count)
}

fn go(agent: &mut Agent, words: usize) -> Result<u32, StepFault> {
    match words {
        2 => turns(agent),
        3 => mails(agent),
        4 => acknowledgements(agent),
        _ => Ok(0),
    }
}

fn counted(alloc: Global, words: usize) -> Option<u32> {
    let Ok(net) = plain_net(alloc, &TWO_AGENTS) else {
        return None;
    };
    let Ok(net) = Network::new(alloc, net) else {
        return None;
    };
    let Ok(entries) = kept(alloc) else {
        return None;
    };
    let Ok(mut agent) = Agent::restore(alloc, net, M, &entries) else {
        return None;
    };
    go(&mut agent, words).ok()
}

fn main(rt: HostRuntime) -> io::Result<()> {
    let words = match env::args(&rt) {
        Ok(words) => words.count(),
        Err(_) => 0,
    };
    match counted(rt.alloc(), words) {
        Some(count) => println!(rt; "{count}")?,
        None => println!(rt; "no memory")?,
    }
    Ok(())
}
PROGRAM
sed -i "s/^const JOBS: u32 = .*/const JOBS: u32 = $jobs;/" "$copy/crates/steps_bench/src/main.rt"

program=$copy/crates/steps_bench/out/steps_bench
if ! (cd "$copy/crates/steps_bench" && rt run > "$copy/build.log" 2>&1) && [ ! -x "$program" ]; then
  tail -n 20 "$copy/build.log"
  exit 1
fi

# measure NAME [WORD..]: what the program takes
measure() {
  local name=$1 begin end count
  shift
  begin=$(date +%s%N)
  count=$("$program" "$@")
  end=$(date +%s%N)
  printf '%s: %s ms, %s entries were kept' "$name" "$(((end - begin) / 1000000))" "$count"
  if [ -x /usr/bin/time ]; then
    printf ', %s KB\n' "$(/usr/bin/time -f %M "$program" "$@" 2>&1 > /dev/null | tail -n 1)"
  else
    printf '\n'
  fi
}

measure "a node with a plan of $jobs jobs and 100,000 entries is restored"
measure 'and takes 10,000 turns' turns
measure 'or 100,000 mails' turns mails
measure 'or 1,000,000 acknowledgements' turns mails acknowledgements
