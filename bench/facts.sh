#!/usr/bin/env bash
# Prints how long a fact of a job, a membership and a take last where the plan has 4,096 streams and 16,384 jobs. It
# judges nothing. Usage: bench/facts.sh. It builds a program of its own in a folder that it removes again.
set -eu
cd "$(dirname "$0")/.."
copy=$(mktemp -d)
trap 'rm -rf "$copy"' EXIT

cp crates.txt HANDLES "$copy"
mkdir -p "$copy/crates/facts_bench/src"
# below NAME: the crates of the repository that a crate stands on, and the crate itself behind them
below() {
  local crate
  for crate in $(sed -n "s/^$1: *//p" crates.txt); do
    [ ! -d "crates/$crate" ] || below "$crate"
  done
  echo "$1"
}
: > "$copy/crates.txt"
for crate in $(below owner_fold | awk '!seen[$0]++'); do
  mkdir "$copy/crates/$crate"
  for part in src specs proofs; do
    [ ! -d "crates/$crate/$part" ] || cp -r "crates/$crate/$part" "$copy/crates/$crate"
  done
  grep -E "^$crate:" crates.txt >> "$copy/crates.txt"
done
echo 'facts_bench: base_types owner_fold' >> "$copy/crates.txt"

cat > "$copy/crates/facts_bench/src/main.rt" <<'PROGRAM'
//! Takes a plan of 4,096 streams with four jobs each. One word makes it take 100,000 starts of its jobs too, two words
//! ask a million facts of jobs, and three as many memberships. Four
//! words take 100,000 launches, and five ask a million facts behind them.
#![tactic(auto)]

use base_types::{
    Body, Entry, Feed, Items, JobDoc, JobNo, NoMemory, Recovery, Seen, SharedDocs, StreamDoc,
    StreamNo, Text, Work, Ws,
};
use owner_fold::Owners;
use std::alloc::Global;
use std::{env, io};

const STREAMS: u32 = 4096;

fn job(alloc: Global, number: u32) -> Result<JobDoc, NoMemory> {
    Ok(JobDoc {
        no: JobNo(number),
        ws: Ws(0),
        name: Text::of(alloc, "J")?,
        priority: 10,
        work: Work::Command(Text::new(alloc)),
        logon: Text::new(alloc),
        cond: Items::new(alloc),
        recovery: Recovery::Stop,
        deps: Items::new(alloc),
    })
}

fn stream(alloc: Global, number: u32) -> Result<StreamDoc, NoMemory> {
    let mut jobs = Items::new(alloc);
    for i in 0..4u32 {
        jobs.push(job(alloc, number.wrapping_mul(4).wrapping_add(i))?)?;
    }
    Ok(StreamDoc {
        no: StreamNo(number),
        ws: Ws(0),
        name: Text::of(alloc, "S")?,
        priority: 10,
        limit: None,
        carry: true,
        deps: Items::new(alloc),
        jobs,
    })
}

fn plan(alloc: Global) -> Result<Body, NoMemory> {
    let mut docs = Items::new(alloc);
    for number in 0..STREAMS {
        docs.push(stream(alloc, number)?)?;
    }
    let docs = SharedDocs::of(alloc, docs)?;
    Ok(Body::NewPlan(1, Seen::new(alloc), Items::new(alloc), docs))
}

/// Takes a body as the next entry of the master.
fn take(owners: &mut Owners, body: Body) -> Result<(), NoMemory> {
    let mut entry = Entry {
        feed: Feed::Events(Ws(0)),
        place: 1,
        body,
    };
    let taken = owners.count(Feed::Events(Ws(0)));
    if taken < u32::MAX {
        entry.place = taken + 1;
        owners.take(&entry)?;
    }
    Ok(())
}

fn takes(owners: &mut Owners) -> Result<(), NoMemory> {
    for i in 0..100_000u32 {
        take(owners, Body::Started(JobNo(i % 16384), i))?;
    }
    Ok(())
}

fn launches(alloc: Global, owners: &mut Owners) -> Result<(), NoMemory> {
    for i in 0..100_000u32 {
        let seen = Seen::new(alloc);
        take(owners, Body::Launched(JobNo(i % 16384), i, seen))?;
    }
    Ok(())
}

fn facts(owners: &Owners) -> u64 {
    let mut due: u64 = 0;
    for i in 0..1_000_000u32 {
        if owners.is_due(JobNo(i.wrapping_mul(7) % 16384)) {
            due = due.wrapping_add(1);
        }
    }
    due
}

fn members(owners: &Owners) -> u64 {
    let mut found: u64 = 0;
    for i in 0..1_000_000u32 {
        if owners.is_member(StreamNo(i.wrapping_mul(7) % 4096)) {
            found = found.wrapping_add(1);
        }
    }
    found
}

/// How many entries, due jobs or members were met.
fn run(alloc: Global, words: usize) -> Result<u64, NoMemory> {
    let mut owners = Owners::new(alloc);
    take(&mut owners, plan(alloc)?)?;
    if words == 2 {
        takes(&mut owners)?;
    }
    if words >= 5 {
        launches(alloc, &mut owners)?;
    }
    if words == 3 || words == 6 {
        return Ok(facts(&owners));
    }
    if words == 4 {
        return Ok(members(&owners));
    }
    Ok(u64::from(owners.count(Feed::Events(Ws(0)))))
}

fn main(rt: HostRuntime) -> io::Result<()> {
    let words = match env::args(&rt) {
        Ok(words) => words.count(),
        Err(_) => 0,
    };
    let met = run(rt.alloc(), words).unwrap_or(0);
    println!(rt; "{met}")?;
    Ok(())
}
PROGRAM

program=$copy/crates/facts_bench/out/facts_bench
if ! (cd "$copy/crates/facts_bench" && rt run > "$copy/build.log" 2>&1) && [ ! -x "$program" ]; then
  tail -n 20 "$copy/build.log"
  exit 1
fi

# measure NAME [WORD..]: what the program takes
measure() {
  local name=$1 begin end met
  shift
  begin=$(date +%s%N)
  met=$("$program" "$@")
  end=$(date +%s%N)
  printf '%s: %s, %s ms\n' "$name" "$met" "$(((end - begin) / 1000000))"
}

measure 'a plan alone, entries'
measure 'and 100,000 takes, entries' takes
measure 'and a million facts, due jobs' ask facts
measure 'and a million memberships, members' ask for members
measure 'and 100,000 launches, entries' take launches of jobs
measure 'and 100,000 launches and a million facts, due jobs' ask facts of launched jobs
