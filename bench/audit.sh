#!/usr/bin/env bash
# Prints how long an audit takes of histories of some 100,000 entries with their starts: of an ordinary night, of one in
# which jobs are launched again and again and each launch counts the others' events now to the end and now to their
# beginning, of one with 30,000 launches open at once, and of a month of nights whose plans carry what is unfinished. The
# first line of each is the history alone, which is made and not audited. It judges nothing.
# Usage: bench/audit.sh. It builds a program of its own in a folder that it removes again. What is proved in this checkout
# already is not proved again.
set -eu
cd "$(dirname "$0")/.."
copy=$(mktemp -d)
trap 'rm -rf "$copy"' EXIT

cp crates.txt HANDLES "$copy"
mkdir -p "$copy/crates/audit_bench/src"
# below NAME: the crates of the repository that a crate stands on, and the crate itself behind them
below() {
  local crate
  for crate in $(sed -n "s/^$1: *//p" crates.txt); do
    [ ! -d "crates/$crate" ] || below "$crate"
  done
  echo "$1"
}
: > "$copy/crates.txt"
for crate in $(below event_audit | awk '!seen[$0]++'); do
  mkdir "$copy/crates/$crate"
  for part in src specs proofs out; do
    [ ! -d "crates/$crate/$part" ] || cp -r "crates/$crate/$part" "$copy/crates/$crate"
  done
  grep -E "^$crate:" crates.txt >> "$copy/crates.txt"
done
echo 'audit_bench: base_types network_tree event_audit indexmap' >> "$copy/crates.txt"

cat > "$copy/crates/audit_bench/src/main.rt" <<'PROGRAM'
//! Makes a history, and audits it where the number of words is odd. Prints how many entries and starts it has, and how
//! many of both are right. Each pair of words names another history.
#![tactic(auto)]

mod crowds;
mod documents;
mod histories;
mod months;
mod nights;
mod reruns;

use base_types::NoMemory;
use documents::network;
use event_audit::{Audit, audit};
use histories::History;
use std::alloc::Global;
use std::{env, io};

/// The history that a number of pairs names.
fn history(alloc: Global, pairs: usize) -> Result<History, NoMemory> {
    let mut history = History::new(alloc);
    match pairs {
        0 => nights::tell(&mut history)?,
        1 => reruns::tell(&mut history)?,
        2 => crowds::tell(&mut history)?,
        _ => months::tell(&mut history)?,
    }
    Ok(history)
}

/// What an audit finds: how many items are right before the first that is wrong, all of them where none is.
fn right_items(alloc: Global, history: &History) -> Result<usize, NoMemory> {
    let entries = history.entries.len();
    let starts = history.starts.len();
    if entries > 1_000_000 || starts > 1_000_000 {
        return Ok(0);
    }
    let net = network(alloc)?;
    match audit(alloc, &net, &history.entries, &history.starts)? {
        Audit::Sound => Ok(entries + starts),
        Audit::Not(number) => Ok((number as usize).saturating_sub(1)),
    }
}

/// How many entries, starts and right items there are.
fn run(alloc: Global, words: usize) -> Result<(usize, usize, usize), NoMemory> {
    let history = history(alloc, words / 2)?;
    let mut right = 0;
    if words % 2 == 1 {
        right = right_items(alloc, &history)?;
    }
    Ok((history.entries.len(), history.starts.len(), right))
}

fn main(rt: HostRuntime) -> io::Result<()> {
    let words = match env::args(&rt) {
        Ok(words) => words.count().saturating_sub(1),
        Err(_) => 0,
    };
    let (entries, starts, right) = run(rt.alloc(), words).unwrap_or((0, 0, 0));
    println!(rt; "{entries} entries, {starts} starts, {right} right items")?;
    Ok(())
}
PROGRAM

cat > "$copy/crates/audit_bench/src/documents.rt" <<'PROGRAM'
//! Documents of streams and jobs, and a network.
use base_types::{
    Carry, Deps, Items, JobDoc, JobNo, Net, NoMemory, Node, Recovery, StreamDoc, StreamNo, Text,
    Work, Ws,
};
use network_tree::Network;
use std::alloc::Global;

/// A letter with a number.
fn name(alloc: Global, letter: &str, number: u32) -> Result<Text, NoMemory> {
    match format!(in alloc; "{letter}{number}") {
        Ok(text) => Ok(Text::from_string(text)),
        Err(_) => Err(NoMemory),
    }
}

/// A job that depends on these.
pub(crate) fn job(alloc: Global, number: u32, w: u16, deps: Deps) -> Result<JobDoc, NoMemory> {
    Ok(JobDoc {
        no: JobNo(number),
        ws: Ws(w),
        name: name(alloc, "J", number)?,
        priority: 10,
        work: Work::Command(Text::new(alloc)),
        logon: Text::new(alloc),
        cond: Items::new(alloc),
        recovery: Recovery::Stop,
        deps,
    })
}

/// A stream without jobs.
pub(crate) fn stream(alloc: Global, number: u32, w: u16) -> Result<StreamDoc, NoMemory> {
    Ok(StreamDoc {
        no: StreamNo(number),
        ws: Ws(w),
        name: name(alloc, "S", number)?,
        priority: 10,
        limit: None,
        carry: true,
        deps: Items::new(alloc),
        jobs: Items::new(alloc),
    })
}

/// The master alone. Others need not be in a network for their events to be audited.
pub(crate) fn network(alloc: Global) -> Result<Network, NoMemory> {
    let mut nodes = Items::new(alloc);
    nodes.push(Node {
        name: Text::of(alloc, "M")?,
        hop: None,
        manager: true,
        full: true,
    })?;
    let net = Net {
        nodes,
        resources: Items::new(alloc),
        prompts: Items::new(alloc),
        carry: Carry::Yes,
    };
    match Network::new(alloc, net) {
        Ok(network) => Ok(network),
        Err(_) => Err(NoMemory),
    }
}
PROGRAM

cat > "$copy/crates/audit_bench/src/histories.rt" <<'PROGRAM'
//! Histories that are made entry by entry.
use base_types::{
    Body, Cmd, Entries, Entry, Feed, Items, JobNo, NoMemory, Seen, Start, Starts, StreamNo, Ws,
};
use indexmap::IndexMap;
use std::alloc::Global;

/// Entries and starts, with the count of each workstation's events and of its orders to itself.
#[derive(Drop)]
pub(crate) struct History {
    pub(crate) alloc: Global,
    pub(crate) entries: Entries,
    pub(crate) starts: Starts,
    events: IndexMap<u16, u32>,
    orders: IndexMap<u16, u32>,
}

fn count_in(counts: &IndexMap<u16, u32>, w: u16) -> u32 {
    match counts.get(&w) {
        None => 0,
        Some(count) => *count,
    }
}

/// Raises a count, and gives it.
fn raised(counts: &mut IndexMap<u16, u32>, w: u16) -> Result<u32, NoMemory> {
    let next = count_in(counts, w).saturating_add(1);
    match counts.insert(w, next) {
        Ok(_) => Ok(next),
        Err(_) => Err(NoMemory),
    }
}

impl History {
    pub(crate) fn new(alloc: Global) -> History {
        History {
            alloc,
            entries: Items::new(alloc),
            starts: Items::new(alloc),
            events: IndexMap::new(alloc),
            orders: IndexMap::new(alloc),
        }
    }

    /// How many events w has.
    pub(crate) fn count(&self, w: u16) -> u32 {
        count_in(&self.events, w)
    }

    /// Adds an event of w.
    pub(crate) fn tell(&mut self, w: u16, body: Body) -> Result<(), NoMemory> {
        let mut entry = Entry {
            feed: Feed::Events(Ws(w)),
            place: 0,
            body,
        };
        entry.place = raised(&mut self.events, w)?;
        self.entries.push(entry)
    }

    /// Adds an order of w to itself.
    fn order(&mut self, w: u16, command: Cmd) -> Result<u32, NoMemory> {
        let mut entry = Entry {
            feed: Feed::Orders(Ws(w), Ws(w)),
            place: 0,
            body: Body::Order(command),
        };
        let place = raised(&mut self.orders, w)?;
        entry.place = place;
        self.entries.push(entry)?;
        Ok(place)
    }

    /// An order of w to itself to rerun a job, which it obeys.
    pub(crate) fn rerun(&mut self, w: u16, j: u32) -> Result<(), NoMemory> {
        let place = self.order(w, Cmd::Rerun(JobNo(j)))?;
        self.tell(w, Body::Obeyed(Ws(w), place, Cmd::Rerun(JobNo(j))))
    }

    /// An order of w to itself that sets how many launches may be open, which it obeys.
    pub(crate) fn limit(&mut self, w: u16, most: u16) -> Result<(), NoMemory> {
        let place = self.order(w, Cmd::Limit(most))?;
        self.tell(w, Body::Obeyed(Ws(w), place, Cmd::Limit(most)))
    }

    /// Counts all events of a workstation, unless it is counted.
    pub(crate) fn count_all(&self, seen: &mut Seen, w: u16) -> Result<(), NoMemory> {
        if seen.count(Ws(w)) == 0 {
            seen.push((Ws(w), self.count(w)))?;
        }
        Ok(())
    }

    /// Counts all events of these workstations.
    pub(crate) fn seen(&self, all: &[u16]) -> Result<Seen, NoMemory> {
        let mut seen = Seen::new(self.alloc);
        for w in all {
            self.count_all(&mut seen, *w)?;
        }
        Ok(seen)
    }

    /// A release of a stream of w, which counts w and the master.
    pub(crate) fn release(&mut self, w: u16, s: u32) -> Result<(), NoMemory> {
        let seen = self.seen(&[w, 0])?;
        self.tell(w, Body::Released(StreamNo(s), seen))
    }

    /// A launch of a job, and its start.
    pub(crate) fn launch(&mut self, w: u16, j: u32, n: u32, seen: Seen) -> Result<(), NoMemory> {
        self.tell(w, Body::Launched(JobNo(j), n, seen))?;
        self.starts.push(Start {
            ws: Ws(w),
            job: JobNo(j),
            number: n,
        })?;
        self.tell(w, Body::Started(JobNo(j), n))
    }

    /// A good end.
    pub(crate) fn end(&mut self, w: u16, j: u32, n: u32) -> Result<(), NoMemory> {
        self.tell(w, Body::Ended(JobNo(j), n, 0, true))
    }
}
PROGRAM

cat > "$copy/crates/audit_bench/src/nights.rt" <<'PROGRAM'
//! A night of 7,000 streams at 16 workstations, each with a chain of four jobs at four of them.
use crate::documents::{job, stream};
use crate::histories::History;
use base_types::{Body, Dep, Items, JobNo, NoMemory, Seen, SharedDocs, StreamDoc, StreamNo};
use std::alloc::Global;

const STREAMS: u32 = 7000;

/// The workstation of a stream, and of a job with its place in its stream.
pub(crate) fn at(s: u32, i: u32) -> u16 {
    (s.wrapping_add(i) % 16) as u16
}

/// The number of a job by its stream and its place from 0.
pub(crate) fn job_no(s: u32, i: u32) -> u32 {
    s.wrapping_mul(4).wrapping_sub(3).wrapping_add(i)
}

/// A stream with a chain of four jobs.
pub(crate) fn chain(alloc: Global, s: u32) -> Result<StreamDoc, NoMemory> {
    let mut jobs = Items::new(alloc);
    for i in 0..4u32 {
        let mut deps = Items::new(alloc);
        if i > 0 {
            deps.push(Dep::FollowsJob(JobNo(job_no(s, i - 1))))?;
        }
        jobs.push(job(alloc, job_no(s, i), at(s, i), deps)?)?;
    }
    let mut doc = stream(alloc, s, at(s, 0))?;
    doc.jobs = jobs;
    Ok(doc)
}

/// A launch of a job of a chain, its start and its end.
fn run_job(history: &mut History, s: u32, i: u32) -> Result<(), NoMemory> {
    let w = at(s, i);
    let mut seen = history.seen(&[w, 0, at(s, 0)])?;
    if i > 0 {
        history.count_all(&mut seen, at(s, i - 1))?;
    }
    history.launch(w, job_no(s, i), 1, seen)?;
    history.end(w, job_no(s, i), 1)
}

/// A stream is released, its jobs run, and it ends.
pub(crate) fn run_stream(history: &mut History, s: u32) -> Result<(), NoMemory> {
    history.release(at(s, 0), s)?;
    for i in 0..4u32 {
        run_job(history, s, i)?;
    }
    let seen = history.seen(&[at(s, 0), 0, at(s, 1), at(s, 2), at(s, 3)])?;
    history.tell(at(s, 0), Body::StreamEnded(StreamNo(s), seen))
}

pub(crate) fn tell(history: &mut History) -> Result<(), NoMemory> {
    let alloc = history.alloc;
    let mut docs = Items::new(alloc);
    for s in 0..STREAMS {
        docs.push(chain(alloc, s.wrapping_add(1))?)?;
    }
    let docs = SharedDocs::of(alloc, docs)?;
    history.tell(0, Body::NewPlan(1, Seen::new(alloc), Items::new(alloc), docs))?;
    for s in 0..STREAMS {
        run_stream(history, s.wrapping_add(1))?;
    }
    Ok(())
}
PROGRAM

cat > "$copy/crates/audit_bench/src/reruns.rt" <<'PROGRAM'
//! Streams of one job at 232 workstations. The jobs of the first 32 are rerun hundreds of times, the first of all thousands
//! of times. Each of the others follows these 32, is rerun 45 times, and counts of each of the 32 now all events, now the
//! first few.
use crate::documents::{job, stream};
use crate::histories::History;
use base_types::{Body, Dep, Deps, Items, JobNo, NoMemory, Seen, SharedDocs, StreamDoc, Ws};
use std::alloc::Global;

const FIRST: u16 = 32;

const ALL: u16 = 232;

/// The release of the only stream, and the first launch, start and end of its job.
const BEGINNING: u32 = 4;

fn follows(alloc: Global, w: u16) -> Result<Deps, NoMemory> {
    let mut deps = Items::new(alloc);
    if w > FIRST {
        for v in 0..FIRST {
            deps.push(Dep::FollowsJob(JobNo(u32::from(v.wrapping_add(1)))))?;
        }
    }
    Ok(deps)
}

/// The stream of w, with its job.
fn document(alloc: Global, w: u16) -> Result<StreamDoc, NoMemory> {
    let deps = follows(alloc, w)?;
    let mut jobs = Items::new(alloc);
    jobs.push(job(alloc, u32::from(w), w, deps)?)?;
    let mut doc = stream(alloc, u32::from(w), w)?;
    doc.jobs = jobs;
    Ok(doc)
}

/// Whom the n-th launch at w counts.
fn seen(history: &History, w: u16, n: u32) -> Result<Seen, NoMemory> {
    let mut seen = history.seen(&[w, 0])?;
    if w > FIRST {
        for v in 0..FIRST {
            let v = v.wrapping_add(1);
            if n.wrapping_add(u32::from(v)) % 2 == 0 {
                seen.push((Ws(v), BEGINNING))?;
            } else {
                history.count_all(&mut seen, v)?;
            }
        }
    }
    Ok(seen)
}

/// Launches and ends of the job of w, up to the n-th.
fn run(history: &mut History, w: u16, last: u32) -> Result<(), NoMemory> {
    for n in 1..=last {
        if n > 1 {
            history.rerun(w, u32::from(w))?;
        }
        let seen = seen(history, w, n)?;
        history.launch(w, u32::from(w), n, seen)?;
        history.end(w, u32::from(w), n)?;
    }
    Ok(())
}

pub(crate) fn tell(history: &mut History) -> Result<(), NoMemory> {
    let alloc = history.alloc;
    let mut docs = Items::new(alloc);
    for w in 0..ALL {
        docs.push(document(alloc, w.wrapping_add(1))?)?;
    }
    let docs = SharedDocs::of(alloc, docs)?;
    history.tell(0, Body::NewPlan(1, Seen::new(alloc), Items::new(alloc), docs))?;
    for w in 0..ALL {
        history.release(w.wrapping_add(1), u32::from(w.wrapping_add(1)))?;
    }
    run(history, 1, 3000)?;
    for v in 1..FIRST {
        run(history, v.wrapping_add(1), 250)?;
    }
    for w in FIRST..ALL {
        run(history, w.wrapping_add(1), 45)?;
    }
    Ok(())
}
PROGRAM

cat > "$copy/crates/audit_bench/src/crowds.rt" <<'PROGRAM'
//! The master has 300 streams of 100 jobs. All jobs are launched before the first of them ends.
use crate::documents::{job, stream};
use crate::histories::History;
use base_types::{Body, Items, NoMemory, Seen, SharedDocs, StreamDoc};
use std::alloc::Global;

const STREAMS: u32 = 300;

const JOBS: u32 = 30000;

fn document(alloc: Global, s: u32) -> Result<StreamDoc, NoMemory> {
    let mut jobs = Items::new(alloc);
    for i in 0..100u32 {
        let number = s.wrapping_mul(100).wrapping_sub(99).wrapping_add(i);
        jobs.push(job(alloc, number, 0, Items::new(alloc))?)?;
    }
    let mut doc = stream(alloc, s, 0)?;
    doc.jobs = jobs;
    Ok(doc)
}

pub(crate) fn tell(history: &mut History) -> Result<(), NoMemory> {
    let alloc = history.alloc;
    let mut docs = Items::new(alloc);
    for s in 0..STREAMS {
        docs.push(document(alloc, s.wrapping_add(1))?)?;
    }
    let docs = SharedDocs::of(alloc, docs)?;
    history.tell(0, Body::NewPlan(1, Seen::new(alloc), Items::new(alloc), docs))?;
    history.limit(0, 60000)?;
    for s in 0..STREAMS {
        history.release(0, s.wrapping_add(1))?;
    }
    for j in 0..JOBS {
        let seen = history.seen(&[0])?;
        history.launch(0, j.wrapping_add(1), 1, seen)?;
    }
    for j in 0..JOBS {
        history.end(0, j.wrapping_add(1), 1)?;
    }
    Ok(())
}
PROGRAM

cat > "$copy/crates/audit_bench/src/months.rt" <<'PROGRAM'
//! Thirty nights of 230 streams each. The plan of each night carries ten that the night before left.
use crate::histories::History;
use crate::nights::{chain, run_stream};
use base_types::{Body, Items, NoMemory, SharedDocs, StreamDocs, StreamNo, StreamNos};

/// How many fresh streams a night has.
const FRESH: u32 = 230;

/// How many of them it leaves.
const LEFT: u32 = 10;

/// The documents of a night.
fn documents(history: &History, night: u32) -> Result<StreamDocs, NoMemory> {
    let mut docs = Items::new(history.alloc);
    for i in 0..FRESH {
        let s = night.wrapping_mul(FRESH).wrapping_add(i).wrapping_add(1);
        docs.push(chain(history.alloc, s)?)?;
    }
    Ok(docs)
}

/// What the night before left.
fn carried(history: &History, night: u32) -> Result<StreamNos, NoMemory> {
    let mut left = Items::new(history.alloc);
    if night > 0 {
        for i in 0..LEFT {
            let s = night.wrapping_mul(FRESH).wrapping_sub(LEFT).wrapping_add(i);
            left.push(StreamNo(s.wrapping_add(1)))?;
        }
    }
    Ok(left)
}

pub(crate) fn tell(history: &mut History) -> Result<(), NoMemory> {
    let all = [0u16, 1, 2, 3, 4, 5, 6, 7, 8, 9, 10, 11, 12, 13, 14, 15];
    for night in 0..30u32 {
        let cut = history.seen(&all)?;
        let carried = carried(history, night)?;
        let docs = SharedDocs::of(history.alloc, documents(history, night)?)?;
        history.tell(0, Body::NewPlan(night.wrapping_add(1), cut, carried, docs))?;
        if night > 0 {
            for i in 0..LEFT {
                let s = night.wrapping_mul(FRESH).wrapping_sub(LEFT).wrapping_add(i);
                run_stream(history, s.wrapping_add(1))?;
            }
        }
        for i in 0..FRESH.wrapping_sub(LEFT) {
            run_stream(history, night.wrapping_mul(FRESH).wrapping_add(i).wrapping_add(1))?;
        }
    }
    Ok(())
}
PROGRAM

program=$copy/crates/audit_bench/out/audit_bench
if ! (cd "$copy/crates/audit_bench" && rt run > "$copy/build.log" 2>&1) && [ ! -x "$program" ]; then
  tail -n 20 "$copy/build.log"
  exit 1
fi

# measure NAME [WORD..]: what the program takes to make a history, and to make and audit it
measure() {
  local name=$1 begin end made word
  shift
  for word in '' audit; do
    begin=$(date +%s%N)
    made=$("$program" "$@" $word)
    end=$(date +%s%N)
    printf '%s, %s: %s, %s ms\n' "$name" "${word:-made}" "$made" "$(((end - begin) / 1000000))"
  done
}

measure 'an ordinary night'
measure 'many reruns' of jobs
measure 'many open launches' at once at one
measure 'a month' of nights that carry what is
