#!/usr/bin/env bash
# Prints how long 1,000 appends to a message file on the system's disk last, beside the same writes and syncs alone,
# and how long a file of 100 MB takes to be attached. It judges nothing. Usage: bench/appends.sh. It builds a program
# of its own in a folder that it removes again, and writes its files there.
set -eu
cd "$(dirname "$0")/.."
copy=$(mktemp -d)
trap 'rm -rf "$copy"' EXIT

cp crates.txt HANDLES "$copy"
mkdir -p "$copy/crates/appends_bench/src"
# below NAME: the crates of the repository that a crate stands on, and the crate itself behind them
below() {
  local crate
  for crate in $(sed -n "s/^$1: *//p" crates.txt); do
    [ ! -d "crates/$crate" ] || below "$crate"
  done
  echo "$1"
}
: > "$copy/crates.txt"
for crate in $(below message_file | awk '!seen[$0]++'); do
  mkdir "$copy/crates/$crate"
  for part in src specs proofs; do
    [ ! -d "crates/$crate/$part" ] || cp -r "crates/$crate/$part" "$copy/crates/$crate"
  done
  grep -E "^$crate:" crates.txt >> "$copy/crates.txt"
done
echo 'appends_bench: base_types outside message_file' >> "$copy/crates.txt"

cat > "$copy/crates/appends_bench/src/disks.rt" <<'PROGRAM'
// A file of the system, which tells nothing of stops.
ghost use Rattle.std.specs.Prelude.{◌≡◌, ◌+◌, ◌-◌, ◌^◌, ◌≤◌, min, None};

use outside::{Disk, Failed};
use std::fs::File;
use std::os::unix::fs::FileExt;

#[derive(Drop)]
pub struct FileDisk {
    pub file: File,
    pub faults: u64,
}

impl FileDisk {
    fn fail(&mut self) -> Failed
        ensures counted { self.new.faults ≡ min (self.old.faults + 1) (2 ^ 64 - 1) }
        ensures later { self.old.faults ≤ self.new.faults }
    {
        self.faults = self.faults.saturating_add(1);
        Failed
    }
}

impl Disk for FileDisk {
    ghost seen = { λ d. None };

    ghost may_leave = { λ d file. ⊥ };

    ghost moment = { λ d. 0 };

    ghost left_since = { λ d t file. ⊥ };

    ghost faults = { λ d. d.faults };

    ghost seen_may_be_left = { λ d file left. absurd left };

    ghost counts_now = { λ d t file le now. now };

    ghost only_now = { λ d file left. left };

    fn len(&mut self) -> Result<u64, Failed> {
        match self.file.metadata() {
            Ok(data) => Ok(data.len()),
            Err(_) => Err(self.fail()),
        }
    }

    fn read_at(&mut self, at: u64, buf: &mut [u8]) -> Result<(), Failed> {
        match self.file.read_exact_at(buf, at) {
            Ok(()) => Ok(()),
            Err(_) => Err(self.fail()),
        }
    }

    fn write_at(&mut self, at: u64, piece: &[u8]) -> Result<(), Failed> {
        match self.file.write_all_at(piece, at) {
            Ok(()) => Ok(()),
            Err(_) => Err(self.fail()),
        }
    }

    fn cut(&mut self, len: u64) -> Result<(), Failed> {
        match self.file.set_len(len) {
            Ok(()) => Ok(()),
            Err(_) => Err(self.fail()),
        }
    }

    fn sync(&mut self) -> Result<(), Failed> {
        match self.file.sync_all() {
            Ok(()) => Ok(()),
            Err(_) => Err(self.fail()),
        }
    }
}
PROGRAM

cat > "$copy/crates/appends_bench/src/main.rt" <<'PROGRAM'
//! Appends 1,000 bodies of 100 bytes to a message file. One word makes the same writes and syncs without it, two words
//! append 25 bodies of 4 MB to a second file, and three attach that file.
#![tactic(auto)]

mod disks;

use base_types::Ws;
use disks::FileDisk;
use message_file::MessageFile;
use outside::{Framed, Keeper};
use std::alloc::Global;
use std::fs::{File, OpenOptions};
use std::os::unix::fs::FileExt;
use std::{env, io};

const SMALL: [u8; 100] = [7; 100];

/// How many bodies a message file on this file kept before and keeps after so many appends of a body.
fn appends(alloc: Global, file: File, body: &[u8], count: u32) -> u32 {
    let Ok(framed) = Framed::of(alloc, body) else {
        return 0;
    };
    match MessageFile::attach(alloc, FileDisk { file, faults: 0 }, Ws(0)) {
        Ok(mut kept) => append_all(&mut kept, &framed, count),
        Err(_) => 0,
    }
}

fn append_all(kept: &mut MessageFile<FileDisk>, framed: &Framed, count: u32) -> u32 {
    for _ in 0..count {
        if kept.append(framed).is_err() {
            return 0;
        }
    }
    kept.count()
}

/// How often the two writes and syncs of such an append were made.
fn writes(file: &File, piece: &[u8], count: u32) -> u32 {
    let mut made = 0u32;
    for i in 0..count {
        if is_written(file, piece, u64::from(i) * 105).is_ok() {
            made = made.saturating_add(1);
        }
    }
    made
}

fn is_written(file: &File, piece: &[u8], at: u64) -> io::Result<()> {
    file.write_all_at(piece, at)?;
    file.sync_all()?;
    file.write_all_at(&[1], at)?;
    file.sync_all()
}

fn opened(rt: &HostRuntime, path: &str) -> io::Result<File> {
    OpenOptions::new()
        .read(true)
        .write(true)
        .create(true)
        .open(rt, path)
}

fn measured(rt: &HostRuntime, words: usize) -> io::Result<u32> {
    let alloc = rt.alloc();
    if words == 2 {
        return Ok(writes(&opened(rt, "plain.msg")?, &[7; 105], 1000));
    }
    if words == 3 {
        let large = vec![in alloc; 7u8; 4_000_000]?;
        return Ok(appends(alloc, opened(rt, "large.msg")?, &large, 25));
    }
    if words == 4 {
        return Ok(appends(alloc, opened(rt, "large.msg")?, &SMALL, 0));
    }
    Ok(appends(alloc, opened(rt, "small.msg")?, &SMALL, 1000))
}

fn main(rt: HostRuntime) -> io::Result<()> {
    let words = match env::args(&rt) {
        Ok(words) => words.count(),
        Err(_) => 0,
    };
    let count = measured(&rt, words)?;
    println!(rt; "{count}")?;
    Ok(())
}
PROGRAM

program=$copy/crates/appends_bench/out/appends_bench
if ! (cd "$copy/crates/appends_bench" && rt run > "$copy/build.log" 2>&1) && [ ! -x "$program" ]; then
  tail -n 20 "$copy/build.log"
  exit 1
fi
cd "$copy"

# measure NAME [WORD..]: what the program takes
measure() {
  local name=$1 begin end met
  shift
  begin=$(date +%s%N)
  met=$("$program" "$@")
  end=$(date +%s%N)
  printf '%s: %s, %s ms\n' "$name" "$met" "$(((end - begin) / 1000000))"
}

measure 'appends of 100 bytes'
measure 'their writes and syncs alone' plain
measure 'appends of 4 MB, bodies' make large
measure 'attaching that file, bodies' attach large file
