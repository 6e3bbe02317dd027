"""A program that runs a script of messages in memory: a script in, lines out, over disks in memory."""

import pair

USES = ["pec_types", "pec_outside", "pec_screen", "pec_top", "base64"]

PROGRAM = r'''//! Runs a script of messages in memory, or writes entries to a disk in memory, and prints how long it took.
#![tactic(auto)]

mod common;

use base64::engine::general_purpose::STANDARD;
use common::{BATCH, BEGIN, DIRECTORY, message, since, word};
use pec_outside::{
    Depot, Disk, Door, MemDepot, MemDisk, MemDoor, MemSink, MemSource, MemTicks, Sink, Source, Ticks,
};
use pec_screen::{NoScreens, Screen};
use pec_top::{Status, run_pec};
use pec_types::Moment;
use std::alloc::Global;
use std::io;
use std::thread::Threads;
use std::time::{Clock, Instant};

/// In seven rounds fifty messages come to their end, and one more is for what the next fifty find.
const ROUNDS: u64 = 8;

fn main(rt: HostRuntime) -> Result<(), io::Error> {
    let (messages, lines, ticks) = (word(&rt, 1)?, word(&rt, 2)?, word(&rt, 3)?);
    let took = match word(&rt, 4)? {
        1 => timed(&rt, messages, lines, ticks > 0),
        2 => written(rt.alloc(), &rt, messages, lines),
        _ => None,
    };
    match took {
        Some((took, count)) => println!(rt; "{took} {count}"),
        None => Ok(()),
    }
}

/// The directory, and a script of so many messages.
fn script(alloc: Global, messages: u64, lines: u64, ticks: bool) -> Option<Vec<u8>> {
    let mut script = Vec::from_slice(alloc, DIRECTORY.as_bytes()).ok()?;
    script.extend_from_slice(b"%%\n").ok()?;
    let message = message(alloc, lines)?;
    let text = STANDARD.encode(alloc, &message).ok()?;
    let mut moment = BEGIN;
    for _ in 0..messages / BATCH {
        add_submissions(alloc, &mut script, moment, text.as_bytes())?;
        if ticks {
            add_line(alloc, &mut script, b"tick alfa ", moment)?;
            add_line(alloc, &mut script, b"tick beta ", moment)?;
        }
        for _ in 0..ROUNDS {
            moment = moment.saturating_add(1);
            add_line(alloc, &mut script, b"round ", moment)?;
        }
    }
    script.extend_from_slice(b"mailbox bob@beta.example\n").ok()?;
    Some(script)
}

fn add_submissions(alloc: Global, script: &mut Vec<u8>, moment: u64, text: &[u8]) -> Option<()> {
    let moment = moment.to_string(alloc).ok()?;
    for _ in 0..BATCH {
        script.extend_from_slice(b"submit alfa ").ok()?;
        script.extend_from_slice(moment.as_bytes()).ok()?;
        script.extend_from_slice(b" alice@alfa.example bob@beta.example ").ok()?;
        script.extend_from_slice(text).ok()?;
        script.extend_from_slice(b"\n").ok()?;
    }
    Some(())
}

fn add_line(alloc: Global, script: &mut Vec<u8>, words: &[u8], moment: u64) -> Option<()> {
    let moment = moment.to_string(alloc).ok()?;
    script.extend_from_slice(words).ok()?;
    script.extend_from_slice(moment.as_bytes()).ok()?;
    script.extend_from_slice(b"\n").ok()?;
    Some(())
}

/// How long a run of so many messages takes, and how many lines it writes.
fn timed<X: Threads + Sync + AllocGlobal + Clock>(
    rt: &X,
    messages: u64,
    lines: u64,
    ticks: bool,
) -> Option<(u128, usize)> {
    let input = script(rt.alloc(), messages, lines, ticks)?;
    let start = Instant::now(rt).ok()?;
    let lines = run(rt, input)?;
    let took = since(rt, start)?;
    let count = lines.iter().filter(|byte| **byte == b'\n').count();
    Some((took, count))
}

/// What a run of this input writes, where it comes to its end.
fn run<X: Threads + Sync + AllocGlobal>(rt: &X, input: Vec<u8>) -> Option<Vec<u8>> {
    let alloc = rt.alloc();
    let words = vec![in alloc; String::from_str(alloc, "run").ok()?].ok()?;
    let mut source = MemSource::new(alloc, input, 65_536, Vec::new(alloc));
    let mut sink = MemSink::new(alloc, Vec::new(alloc));
    let mut depot = MemDepot::new(alloc, Vec::new(alloc), Vec::new(alloc));
    let moments = vec![in alloc; Moment::new(BEGIN)?].ok()?;
    let mut ticks = MemTicks::new(alloc, moments, Vec::new(alloc));
    let mut door = MemDoor::new(alloc, Vec::new(alloc), Vec::new(alloc), Vec::new(alloc));
    let status = status_of(
        rt, &words, &mut source, &mut sink, &mut depot, &mut ticks, &mut door,
    );
    if status != Status::Done {
        return None;
    }
    Vec::from_slice(alloc, sink.bytes()).ok()
}

/// The one call of the program.
fn status_of<X: Threads + Sync + AllocGlobal, S: Source, W: Sink, P: Depot, T: Ticks, R: Door>(
    rt: &X,
    words: &[String],
    source: &mut S,
    sink: &mut W,
    depot: &mut P,
    ticks: &mut T,
    door: &mut R,
) -> Status {
    let alloc = rt.alloc();
    let screens: Vec<NoScreens> = Vec::new(alloc);
    let spares: Vec<Box<dyn Screen>> = Vec::new(alloc);
    run_pec(
        rt, alloc, words, source, sink, depot, ticks, door, screens, spares,
    )
}

/// How long the calls of so many entries take on a disk in memory, and how many calls it counts.
fn written(alloc: Global, clock: &impl Clock, entries: u64, length: u64) -> Option<(u128, usize)> {
    let entry = vec![in alloc; b'x'; length as usize].ok()?;
    let mut disk = MemDisk::new(alloc, Vec::new(alloc));
    let start = Instant::now(clock).ok()?;
    for number in 0..entries {
        append(&mut disk, number.saturating_mul(length), &entry)?;
    }
    let took = since(clock, start)?;
    Some((took, disk.calls()))
}

/// The calls by which a journal appends an entry.
fn append(disk: &mut MemDisk, at: u64, entry: &[u8]) -> Option<()> {
    disk.write_at(at, entry).ok()?;
    disk.sync().ok()?;
    disk.write_at(at, b"\x01").ok()?;
    disk.sync().ok()
}
'''

FILES = {"src/main.rt": PROGRAM, "src/common.rt": pair.COMMON}
