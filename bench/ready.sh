#!/usr/bin/env bash
# Prints how long an index of jobs that wait takes: to be made, to be asked for the best job 1,000,000 times, and to take
# 1,000,000 entries that concern no job that waits. It judges nothing.
# Usage: bench/ready.sh [JOBS], 16000 without a word. It builds a program of its own in a folder that it removes again.
set -eu
cd "$(dirname "$0")/.."
jobs=${1:-16000}
copy=$(mktemp -d)
trap 'rm -rf "$copy"' EXIT

cp crates.txt HANDLES "$copy"
mkdir -p "$copy/crates/ready_bench/src"
# below NAME: the crates of the repository that a crate stands on, and the crate itself behind them
below() {
  local crate
  for crate in $(sed -n "s/^$1: *//p" crates.txt); do
    [ ! -d "crates/$crate" ] || below "$crate"
  done
  echo "$1"
}
: > "$copy/crates.txt"
for crate in $( (below ready_index; below test_builders) | awk '!seen[$0]++'); do
  mkdir "$copy/crates/$crate"
  for part in src specs proofs; do
    [ ! -d "crates/$crate/$part" ] || cp -r "crates/$crate/$part" "$copy/crates/$crate"
  done
  grep -E "^$crate:" crates.txt >> "$copy/crates.txt"
done
echo 'ready_bench: base_types owner_fold network_tree dependencies ready_index test_builders' >> "$copy/crates.txt"

# a released stream whose last job all others follow, with that job launched
cat > "$copy/crates/ready_bench/src/main.rt" <<'PROGRAM'
//! Holds a plan of jobs that wait for one. A word makes the index of them, a second asks it for the best job, and a
//! third lets it take entries. It prints how often a job was best.
#![tactic(auto)]

use base_types::{
    Body, Dep, Deps, Entry, Feed, Items, JobDoc, JobNo, Moment, NoMemory, Seen, SharedDocs, StreamDoc, StreamNo,
    Ws,
};
use dependencies::Readiness;
use network_tree::Network;
use owner_fold::Owners;
use ready_index::Index;
use std::alloc::Global;
use std::{env, io};
use test_builders::{ALONE, job, one, plain_net, stream};

const JOBS: u32 = 16000;

const TIMES: u32 = 1000000;

const M: Ws = Ws(0);

fn follower(alloc: Global, number: u32) -> Result<JobDoc, NoMemory> {
    let mut doc = job(alloc, number, 0, "J")?;
    let mut deps = Deps::new(alloc);
    deps.push(Dep::FollowsJob(JobNo(JOBS + 1)))?;
    doc.deps = deps;
    Ok(doc)
}

fn followed_stream(alloc: Global) -> Result<StreamDoc, NoMemory> {
    let mut doc = stream(alloc, 1, 0, "S")?;
    for number in 1..JOBS + 1 {
        doc.jobs.push(follower(alloc, number)?)?;
    }
    doc.jobs.push(job(alloc, JOBS + 1, 0, "Z")?)?;
    Ok(doc)
}

fn take(owners: &mut Owners, body: Body) -> Result<(), NoMemory> {
    let mut entry = Entry {
        feed: Feed::Events(M),
        place: 1,
        body,
    };
    let taken = owners.count(entry.feed);
    if taken < u32::MAX {
        entry.place = taken + 1;
        owners.take(&entry)?;
    }
    Ok(())
}

fn holding(alloc: Global) -> Result<Owners, NoMemory> {
    let mut owners = Owners::new(alloc);
    let docs = SharedDocs::of(alloc, one(alloc, followed_stream(alloc)?)?)?;
    take(&mut owners, Body::NewPlan(1, Seen::new(alloc), Items::new(alloc), docs))?;
    take(&mut owners, Body::Released(StreamNo(1), Seen::new(alloc)))?;
    take(&mut owners, Body::Launched(JobNo(JOBS + 1), 1, Seen::new(alloc)))?;
    Ok(owners)
}

/// How often a job is best.
fn ask(net: &Network, owners: &Owners, index: &Index) -> u32 {
    let mut count: u32 = 0;
    for _ in 0..TIMES {
        if index.best(net, owners, M).is_some() {
            count = count.saturating_add(1);
        }
    }
    count
}

/// Takes an entry that tells the end of a job that nobody waits for.
fn hear(net: &Network, owners: &Owners, index: &mut Index) -> Result<(), NoMemory> {
    let entry = Entry {
        feed: Feed::Events(M),
        place: 4,
        body: Body::Ended(JobNo(1), 1, 0, true),
    };
    for _ in 0..TIMES {
        index.took(net, owners, M, &entry)?;
    }
    Ok(())
}

fn run(alloc: Global, net: &Network, words: usize) -> Result<u32, NoMemory> {
    let owners = holding(alloc)?;
    if words < 2 {
        return Ok(0);
    }
    let mut index = Index::of(alloc, net, &owners, M)?;
    if words > 3 {
        hear(net, &owners, &mut index)?;
    }
    if words > 2 {
        return Ok(ask(net, &owners, &index));
    }
    Ok(0)
}

fn counted(alloc: Global, words: usize) -> Option<u32> {
    let Ok(net) = plain_net(alloc, &ALONE) else {
        return None;
    };
    let Ok(net) = Network::new(alloc, net) else {
        return None;
    };
    let Ok(count) = run(alloc, &net, words) else {
        return None;
    };
    Some(count)
}

fn main(rt: HostRuntime) -> io::Result<()> {
    let words = match env::args(&rt) {
        Ok(words) => words.count(),
        Err(_) => 0,
    };
    match counted(rt.alloc(), words) {
        Some(count) => println!(rt; "{count}")?,
        None => println!(rt; "no memory")?,
    }
    Ok(())
}
PROGRAM
sed -i "s/^const JOBS: u32 = .*/const JOBS: u32 = $jobs;/" "$copy/crates/ready_bench/src/main.rt"

program=$copy/crates/ready_bench/out/ready_bench
if ! (cd "$copy/crates/ready_bench" && rt run > "$copy/build.log" 2>&1) && [ ! -x "$program" ]; then
  tail -n 20 "$copy/build.log"
  exit 1
fi

# measure NAME [WORD..]: what the program takes
measure() {
  local name=$1 begin end count
  shift
  begin=$(date +%s%N)
  count=$("$program" "$@")
  end=$(date +%s%N)
  printf '%s: %s ms, a job was best %s times' "$name" "$(((end - begin) / 1000000))" "$count"
  if [ -x /usr/bin/time ]; then
    printf ', %s KB\n' "$(/usr/bin/time -f %M "$program" "$@" 2>&1 > /dev/null | tail -n 1)"
  else
    printf '\n'
  fi
}

measure "a plan of $jobs jobs that wait"
measure 'and its index' made
measure 'and 1,000,000 questions for the best job' made asked
measure 'and before them 1,000,000 entries that concern no job' made asked took
