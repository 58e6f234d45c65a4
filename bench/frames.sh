#!/usr/bin/env bash
# Prints how long a decoder takes for 64 MB of small frames, byte by byte and in pieces of 4,096. It judges nothing.
# Usage: bench/frames.sh. It builds a program of its own in a folder that it removes again.
set -eu
cd "$(dirname "$0")/.."
copy=$(mktemp -d)
trap 'rm -rf "$copy"' EXIT

cp crates.txt HANDLES "$copy"
mkdir -p "$copy/crates/frames_bench/src"
for crate in base_types model byte_fields mail_frames; do
  mkdir "$copy/crates/$crate"
  for part in src specs proofs; do
    [ ! -d "crates/$crate/$part" ] || cp -r "crates/$crate/$part" "$copy/crates/$crate"
  done
done
grep -E '^(base_types|model|byte_fields|mail_frames):' crates.txt > "$copy/crates.txt"
echo 'frames_bench: mail_frames' >> "$copy/crates.txt"

# acknowledgements of 12 bytes, which pieces of 4,096 cut
cat > "$copy/crates/frames_bench/src/main.rt" <<'PROGRAM'
//! Feeds acknowledgements to a decoder, and prints how many came. A word makes the pieces 4,096 bytes long, not one.
#![tactic(auto)]

use mail_frames::Decoder;
use std::{env, io};

const FRAME: [u8; 12] = [0, 0, 0, 8, 2, 0, 0, 0, 0, 0, 0, 1];

fn main(rt: HostRuntime) -> io::Result<()> {
    let words = match env::args(&rt) {
        Ok(words) => words.count(),
        Err(_) => 0,
    };
    let size = if words > 1 { 4096 } else { 1 };
    let mut block = [0; 12288];
    for (i, byte) in block.iter_mut().enumerate() {
        *byte = FRAME[i % 12];
    }
    let mut decoder = Decoder::new(rt.alloc());
    let mut count: u64 = 0;
    for _ in 0..5461 {
        for piece in block.chunks(size) {
            if let Ok(fed) = decoder.feed(piece) {
                count = count.saturating_add(fed.frames.len() as u64);
            }
        }
    }
    println!(rt; "{count}")?;
    Ok(())
}
PROGRAM

program=$copy/crates/frames_bench/out/frames_bench
if ! (cd "$copy/crates/frames_bench" && rt run > "$copy/build.log" 2>&1) && [ ! -x "$program" ]; then
  tail -n 20 "$copy/build.log"
  exit 1
fi

# measure NAME [WORD]: what the program takes
measure() {
  local name=$1 begin end frames
  shift
  begin=$(date +%s%N)
  frames=$("$program" "$@")
  end=$(date +%s%N)
  printf '%s: %s frames, %s ms' "$name" "$frames" "$(((end - begin) / 1000000))"
  if [ -x /usr/bin/time ]; then
    printf ', %s KB\n' "$(/usr/bin/time -f %M "$program" "$@" 2>&1 > /dev/null | tail -n 1)"
  else
    printf '\n'
  fi
}

measure '64 MB byte by byte'
measure '64 MB in pieces of 4,096' pieces
