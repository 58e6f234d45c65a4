#!/usr/bin/env bash
# Prints how long a world of three nodes takes for steps of a night in which a job is rerun again and again: for 50,000,
# 100,000 and 199,000 steps, so that one sees whether a step takes longer as the history grows. Then how long it takes
# after 100,000 steps to make the parts of a report, and to take 100 steps in which a node stops and loses its entry. And
# how long a world of 256 nodes takes until 20,000,000 packets are sent. It judges nothing.
# Usage: bench/worlds.sh. It builds a program of its own in a folder that it removes again.
set -eu
cd "$(dirname "$0")/.."
copy=$(mktemp -d)
trap 'rm -rf "$copy"' EXIT

cp crates.txt HANDLES "$copy"
mkdir -p "$copy/crates/worlds_bench/src"
# below NAME: the crates of the repository that a crate stands on, and the crate itself behind them
below() {
  local crate
  for crate in $(sed -n "s/^$1: *//p" crates.txt); do
    [ ! -d "crates/$crate" ] || below "$crate"
  done
  echo "$1"
}
: > "$copy/crates.txt"
for crate in $( (below network_world; below test_builders) | awk '!seen[$0]++'); do
  mkdir "$copy/crates/$crate"
  for part in src specs proofs; do
    [ ! -d "crates/$crate/$part" ] || cp -r "crates/$crate/$part" "$copy/crates/$crate"
  done
  grep -E "^$crate:" crates.txt >> "$copy/crates.txt"
done
echo 'worlds_bench: base_types network_tree network_world test_builders' >> "$copy/crates.txt"

cat > "$copy/crates/worlds_bench/src/main.rt" <<'PROGRAM'
//! Takes the steps of a long night, and prints how many were taken and how many entries were made. The number of words
//! says which night, and what is done after it.
#![tactic(auto)]

ghost use Rattle.std.specs.Prelude.{◌≡◌, nat_lt};
ghost use Rattle.std.specs.List.{list_all};
ghost use Rattle.network_world.specs.Standing.{ws_in_step};

use base_types::{Cmd, JobNo, Local, Moment, NoMemory, WorldStep, Ws};
use network_tree::Network;
use network_world::World;
use std::alloc::Global;
use std::{env, io};
use test_builders::{
    DraftWaits, JobDraftRow, NodeRow, StreamDraftRow, Waits, drafts, node, plain_net,
};

/// The master with an agent that has work, and one that has none.
const NODES: [NodeRow; 3] = [
    ("M", None, true, false),
    ("P", Some(0), false, false),
    ("Q", Some(0), false, false),
];

const FILE: [DraftWaits; 1] = [DraftWaits::Plain(Waits::File("f"))];

/// A job that runs, and one that waits all night, so that their stream does not end.
const JOBS: [JobDraftRow; 2] = [(1, "A", &[]), (1, "B", &FILE)];

const PLAN: [StreamDraftRow; 1] = [(1, "S", false, &[], &JOBS)];

/// Whether the workstations of a step are below a count.
fn is_inside(count: u16, step: &WorldStep) -> bool
    ensures { result ≡ list_all (λ w. nat_lt w count) (ws_in_step step.now) }
{
    match step {
        WorldStep::Take(w, _) => w.0 < count,
        WorldStep::Deliver(a, b, _) => a.0 < count && b.0 < count,
        WorldStep::Crash(w) => w.0 < count,
        WorldStep::CrashTake(w, _, _) => w.0 < count,
        WorldStep::CrashDeliver(a, b, _, _) => a.0 < count && b.0 < count,
    }
}

/// A world that counts the steps that it takes, up to a number of them.
#[derive(Drop)]
struct Night {
    alloc: Global,
    world: World,
    taken: u32,
    most: u32,
}

impl Night {
    /// Takes a step, where the most are not taken yet. Whether it was taken.
    fn take(&mut self, step: &WorldStep) -> bool {
        let count = self.world.net().count();
        if self.taken >= self.most || !is_inside(count, step) {
            return false;
        }
        let taken = self.world.step(step).is_ok();
        if taken {
            self.taken = self.taken.saturating_add(1);
        }
        taken
    }

    fn at(&mut self, w: u16, local: Local) -> bool {
        self.take(&WorldStep::Take(Ws(w), local))
    }

    fn typed(&mut self, w: u16, to: u16, cmd: Cmd) -> bool {
        self.at(w, Local::Typed(Ws(to), cmd))
    }

    fn turn(&mut self, w: u16) -> bool {
        self.at(w, Local::Turn(Moment(0)))
    }

    /// Delivers what was sent and has not arrived.
    fn flow(&mut self, a: u16, b: u16) {
        let count = self.world.net().count();
        if a < count && b < count {
            let sent = self.world.packets(Ws(a), Ws(b));
            let reached = self.world.reached(Ws(a), Ws(b));
            for k in reached..sent {
                self.take(&WorldStep::Deliver(Ws(a), Ws(b), k + 1));
            }
        }
    }

    fn link(&mut self, w: u16) {
        self.at(0, Local::Linked(Ws(w)));
        self.at(w, Local::Linked(Ws(0)));
    }

    /// All take turns, and all that was sent arrives.
    fn go_round(&mut self) {
        for w in 0..3u16 {
            self.turn(w);
        }
        for w in 1..3u16 {
            self.flow(w, 0);
            self.flow(0, w);
        }
    }

    /// The plan is made and reaches the agents, and the job runs.
    fn begin(&mut self) -> Result<(), NoMemory> {
        let plan = drafts(self.alloc, &PLAN)?;
        self.at(0, Local::Next(plan));
        self.link(1);
        self.link(2);
        for _ in 0..4u32 {
            self.go_round();
        }
        self.at(1, Local::Ended(JobNo(1), 0));
        Ok(())
    }

    /// The job is rerun from the master, round by round.
    fn go(&mut self) -> Result<(), NoMemory> {
        self.begin()?;
        for _ in 0..200_000u32 {
            if self.taken < self.most {
                self.typed(0, 1, Cmd::Rerun(JobNo(1)));
                self.go_round();
                self.go_round();
                self.go_round();
                self.at(1, Local::Ended(JobNo(1), 0));
            }
        }
        Ok(())
    }

    /// A hundred steps in which P stops and loses its entry.
    fn lose(&mut self) {
        self.most = u32::MAX;
        for _ in 0..100u32 {
            let local = Local::Typed(Ws(0), Cmd::Fence(9));
            self.take(&WorldStep::CrashTake(Ws(1), local, false));
        }
    }

    /// The master has eight entries that each of its agents wants and none acknowledges.
    fn send(&mut self) {
        for _ in 0..8u32 {
            self.typed(0, 0, Cmd::Fence(9));
            self.turn(0);
        }
        for w in 1..256u16 {
            self.at(0, Local::Linked(Ws(w)));
        }
        for _ in 0..10_000u32 {
            self.turn(0);
        }
    }
}

fn begun(alloc: Global, net: Network, most: u32) -> Result<Night, NoMemory> {
    let world = World::new(alloc, net)?;
    Ok(Night {
        alloc,
        world,
        taken: 0,
        most,
    })
}

fn small(alloc: Global, most: u32) -> Option<Night> {
    let Ok(net) = plain_net(alloc, &NODES) else {
        return None;
    };
    let Ok(net) = Network::new(alloc, net) else {
        return None;
    };
    begun(alloc, net, most).ok()
}

/// The master with 255 agents.
fn crowd(alloc: Global) -> Option<Night> {
    let Ok(mut net) = plain_net(alloc, &[("M", None, true, false)]) else {
        return None;
    };
    for _ in 0..255u32 {
        let Ok(agent) = node(alloc, &("A", Some(0), false, false)) else {
            return None;
        };
        if net.nodes.push(agent).is_err() {
            return None;
        }
    }
    let Ok(net) = Network::new(alloc, net) else {
        return None;
    };
    begun(alloc, net, u32::MAX).ok()
}

/// A night of so many steps, and what is done after it.
fn night(alloc: Global, most: u32, words: usize) -> Option<Night> {
    let mut night = small(alloc, most)?;
    if night.go().is_err() {
        return None;
    }
    if words == 5 && night.world.parts().is_err() {
        return None;
    }
    if words == 6 {
        night.lose();
    }
    Some(night)
}

fn sent(alloc: Global) -> Option<Night> {
    let mut night = crowd(alloc)?;
    night.send();
    Some(night)
}

fn done(alloc: Global, words: usize) -> Option<Night> {
    match words {
        2 => night(alloc, 50_000, words),
        3 => night(alloc, 100_000, words),
        4 => night(alloc, 199_000, words),
        5 => night(alloc, 100_000, words),
        6 => night(alloc, 100_000, words),
        7 => sent(alloc),
        _ => small(alloc, 0),
    }
}

fn main(rt: HostRuntime) -> io::Result<()> {
    let words = match env::args(&rt) {
        Ok(words) => words.count(),
        Err(_) => 0,
    };
    match done(rt.alloc(), words) {
        Some(night) => {
            let entries = night.world.history().len();
            let taken = night.taken;
            println!(rt; "{taken} steps, {entries} entries")?
        }
        None => println!(rt; "no memory")?,
    }
    Ok(())
}
PROGRAM

program=$copy/crates/worlds_bench/out/worlds_bench
if ! (cd "$copy/crates/worlds_bench" && rt run > "$copy/build.log" 2>&1) && [ ! -x "$program" ]; then
  tail -n 20 "$copy/build.log"
  exit 1
fi

# measure NAME [WORD..]: what the program takes
measure() {
  local name=$1 begin end counts
  shift
  begin=$(date +%s%N)
  counts=$("$program" "$@")
  end=$(date +%s%N)
  printf '%s: %s ms, %s' "$name" "$(((end - begin) / 1000000))" "$counts"
  if [ -x /usr/bin/time ]; then
    printf ', %s KB\n' "$(/usr/bin/time -f %M "$program" "$@" 2>&1 > /dev/null | tail -n 1)"
  else
    printf '\n'
  fi
}

measure 'a night of 50,000 steps' a
measure 'one of 100,000 steps' a b
measure 'one of 199,000 steps' a b c
measure 'one of 100,000 steps, and the parts of its report' a b c d
measure 'one of 100,000 steps, and 100 steps in which a node stops and loses its entry' a b c d e
measure 'a master that sends to 255 agents until 20,000,000 packets are sent' a b c d e f
