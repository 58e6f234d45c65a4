#!/usr/bin/env bash
# Prints how long a plan of 4,096 streams and 16,384 jobs with 64 dependencies each takes. It judges nothing.
# Usage: bench/plans.sh. It builds a program of its own in a folder that it removes again.
set -eu
cd "$(dirname "$0")/.."
copy=$(mktemp -d)
trap 'rm -rf "$copy"' EXIT

cp crates.txt HANDLES "$copy"
mkdir -p "$copy/crates/plans_bench/src"
# below NAME: the crates of the repository that a crate stands on, and the crate itself behind them
below() {
  local crate
  for crate in $(sed -n "s/^$1: *//p" crates.txt); do
    [ ! -d "crates/$crate" ] || below "$crate"
  done
  echo "$1"
}
: > "$copy/crates.txt"
for crate in $(below carry_forward | awk '!seen[$0]++'); do
  mkdir "$copy/crates/$crate"
  for part in src specs proofs; do
    [ ! -d "crates/$crate/$part" ] || cp -r "crates/$crate/$part" "$copy/crates/$crate"
  done
  grep -E "^$crate:" crates.txt >> "$copy/crates.txt"
done
echo 'plans_bench: base_types network_tree owner_fold carry_forward' >> "$copy/crates.txt"

# four jobs a stream, and each job follows 64 jobs of streams that are spread over all
cat > "$copy/crates/plans_bench/src/main.rt" <<'PROGRAM'
//! Makes drafts, and prints how many there are. A word makes the plan of them too, and prints its streams.
#![tactic(auto)]

use base_types::{
    Body, Carry, DraftDep, DraftDeps, Items, JobDraft, Net, NoMemory, Node, Recovery, StreamDraft,
    StreamDrafts, Text, Work, Ws,
};
use carry_forward::next_plan;
use network_tree::Network;
use owner_fold::Owners;
use std::alloc::Global;
use std::{env, io};

const STREAMS: u32 = 4096;

fn name(alloc: Global, letter: &str, number: u32) -> Result<Text, NoMemory> {
    match format!(in alloc; "{letter}{number}") {
        Ok(text) => Ok(Text::from_string(text)),
        Err(_) => Err(NoMemory),
    }
}

/// A FOLLOWS on each of 64 jobs.
fn deps(alloc: Global, stream: u32) -> Result<DraftDeps, NoMemory> {
    let mut deps = Items::new(alloc);
    for i in 0..64u32 {
        let other = stream.wrapping_add(61 * i) % STREAMS;
        let of_job = name(alloc, "J", i % 4)?;
        deps.push(DraftDep::Follows(Ws(0), name(alloc, "S", other)?, Some(of_job)))?;
    }
    Ok(deps)
}

fn job(alloc: Global, stream: u32, number: u32) -> Result<JobDraft, NoMemory> {
    Ok(JobDraft {
        ws: Ws(0),
        name: name(alloc, "J", number)?,
        priority: 10,
        work: Work::Command(Text::of(alloc, "echo a")?),
        logon: Text::new(alloc),
        cond: Items::new(alloc),
        recovery: Recovery::Stop,
        deps: deps(alloc, stream)?,
    })
}

fn draft(alloc: Global, stream: u32) -> Result<StreamDraft, NoMemory> {
    let mut jobs = Items::new(alloc);
    for number in 0..4u32 {
        jobs.push(job(alloc, stream, number)?)?;
    }
    Ok(StreamDraft {
        ws: Ws(0),
        name: name(alloc, "S", stream)?,
        priority: 10,
        limit: None,
        carry: true,
        deps: Items::new(alloc),
        jobs,
    })
}

fn drafts(alloc: Global) -> Result<StreamDrafts, NoMemory> {
    let mut drafts = Items::new(alloc);
    for stream in 0..STREAMS {
        drafts.push(draft(alloc, stream)?)?;
    }
    Ok(drafts)
}

/// One workstation.
fn net(alloc: Global) -> Result<Net, NoMemory> {
    let mut nodes = Items::new(alloc);
    nodes.push(Node {
        name: Text::of(alloc, "M")?,
        hop: None,
        manager: true,
        full: true,
    })?;
    Ok(Net {
        nodes,
        resources: Items::new(alloc),
        prompts: Items::new(alloc),
        carry: Carry::Yes,
    })
}

/// How many streams the plan of the drafts has. None where there is no plan.
fn planned(alloc: Global, drafts: &StreamDrafts) -> Option<usize> {
    let net = Network::new(alloc, net(alloc).ok()?).ok()?;
    let owners = Owners::new(alloc);
    match next_plan(alloc, &net, &owners, drafts) {
        Ok(Body::NewPlan(_, _, _, docs)) => Some(docs.docs().len()),
        _ => None,
    }
}

/// How many streams the drafts have, or the plan of them. None where there is no plan.
fn count(alloc: Global, plans: bool) -> Option<usize> {
    let drafts = drafts(alloc).ok()?;
    if plans {
        planned(alloc, &drafts)
    } else {
        Some(drafts.len())
    }
}

fn main(rt: HostRuntime) -> io::Result<()> {
    let plans = match env::args(&rt) {
        Ok(words) => words.count() > 1,
        Err(_) => false,
    };
    let count = count(rt.alloc(), plans).unwrap_or(0);
    println!(rt; "{count}")?;
    Ok(())
}
PROGRAM

program=$copy/crates/plans_bench/out/plans_bench
if ! (cd "$copy/crates/plans_bench" && rt run > "$copy/build.log" 2>&1) && [ ! -x "$program" ]; then
  tail -n 20 "$copy/build.log"
  exit 1
fi

# measure NAME [WORD]: what the program takes
measure() {
  local name=$1 begin end streams
  shift
  begin=$(date +%s%N)
  streams=$("$program" "$@")
  end=$(date +%s%N)
  printf '%s: %s streams, %s ms' "$name" "$streams" "$(((end - begin) / 1000000))"
  if [ -x /usr/bin/time ]; then
    printf ', %s KB\n' "$(/usr/bin/time -f %M "$program" "$@" 2>&1 > /dev/null | tail -n 1)"
  else
    printf '\n'
  fi
}

measure 'drafts alone'
measure 'drafts and their plan' plan
