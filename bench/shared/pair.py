"""A program that plays messages between two providers without a network, and prices the letters: what HMAC-SHA-256 and
base64 of them cost. Its first part serves other programs too."""

import os
import subprocess
import sys
import tempfile

import stage

USES = stage.DESK_USES + ["base64"]

# What all of these programs have.
COMMON = r'''//! The directory, the messages, and how long something took.

use std::alloc::Global;
use std::env;
use std::io;
use std::time::{Clock, Instant};

pub(crate) const DIRECTORY: &str = r#"[[provider]]
name = "alfa"
mailReceipt = "ricevute@alfa.example"
managedDomains = ["alfa.example"]
key = "000102030405060708090a0b0c0d0e0f"
zone = "UTC0"
[[provider.account]]
address = "alice@alfa.example"
quota = 1000000
key = "alice"
[[provider]]
name = "beta"
mailReceipt = "ricevute@beta.example"
managedDomains = ["beta.example"]
key = "101112131415161718191a1b1c1d1e1f"
zone = "UTC0"
[[provider.account]]
address = "bob@beta.example"
quota = 1000000
key = "bob"
"#;

pub(crate) const HEAD: &[u8] = b"From: alice@alfa.example\r\nTo: bob@beta.example\r\nSubject: Ciao\r\n\r\n";

pub(crate) const LINE: &[u8] = b"Salve, e nulla di nuovo: anche oggi il tempo e' bello, e domani lo sara'.\r\n";

/// When the first message is submitted.
pub(crate) const BEGIN: u64 = 1_704_186_000;

/// How many messages are submitted at a time.
pub(crate) const BATCH: u64 = 50;

/// A message with so many lines, from alice to bob.
pub(crate) fn message(alloc: Global, lines: u64) -> Option<Vec<u8>> {
    let mut message = Vec::from_slice(alloc, HEAD).ok()?;
    for _ in 0..lines {
        message.extend_from_slice(LINE).ok()?;
    }
    Some(message)
}

/// Nanoseconds since this moment.
pub(crate) fn since(clock: &impl Clock, start: Instant) -> Option<u128> {
    let took = start.elapsed(clock).ok()?;
    Some(took.as_nanos())
}

/// The number at a place of the program's words, or 0.
pub(crate) fn word(rt: &HostRuntime, place: usize) -> Result<u64, io::Error> {
    for (at, word) in env::args(rt)?.enumerate() {
        if at == place {
            return Ok(word.parse::<u64>().unwrap_or(0));
        }
    }
    Ok(0)
}
'''

# Two providers that hand each other what they put, as a network does in its rounds.
PAIR = r'''//! Two providers over disks in memory: what each puts in a round the other handles in the next, as in a network.

use crate::common::{BATCH, BEGIN, DIRECTORY, message, since};
use crate::desk::{Desk, Home};
use base64::engine::general_purpose::STANDARD;
use pec_seal::{HmacSealer, Sealer};
use pec_types::{Address, Frame, Moment, Submitted};
use std::alloc::Global;
use std::mem;
use std::time::{Clock, Instant};

/// How many frames a link holds.
const LINK: usize = 64;

/// How long each kind of call took, in nanoseconds, and how many there were.
#[derive(Clone, Copy)]
pub(crate) struct Spent {
    pub(crate) submitting: u128,
    pub(crate) arriving: u128,
    pub(crate) arrivals: u64,
    pub(crate) deciding: u128,
    pub(crate) putting: u128,
    pub(crate) letters: u64,
    pub(crate) bytes: u64,
    /// HMAC-SHA-256 of each letter, as it is put and as it arrives, and its base64.
    pub(crate) least: u128,
}

const NOTHING: Spent = Spent {
    submitting: 0,
    arriving: 0,
    arrivals: 0,
    deciding: 0,
    putting: 0,
    letters: 0,
    bytes: 0,
    least: 0,
};

/// A provider, and the frames that wait for it.
pub(crate) struct Side {
    desk: Desk,
    waiting: Vec<Frame>,
}

impl Drop for Side {
    fn drop(self) {
        let Side {
            desk: _,
            waiting: _,
        } = self;
    }
}

pub(crate) struct Pair {
    alloc: Global,
    alfa: Side,
    beta: Side,
    now: u64,
    spent: Spent,
}

impl Drop for Pair {
    fn drop(self) {
        let Pair {
            alloc: _,
            alfa: _,
            beta: _,
            now: _,
            spent: _,
        } = self;
    }
}

/// What is handed in, each time the same.
#[derive(Drop)]
pub(crate) struct Given {
    alice: Address,
    path: Vec<Address>,
    message: Vec<u8>,
}

pub(crate) fn given_of(alloc: Global, lines: u64) -> Option<Given> {
    let alice = Address::read(alloc, b"alice@alfa.example").ok()?;
    let bob = Address::read(alloc, b"bob@beta.example").ok()?;
    let message = message(alloc, lines)?;
    let path = vec![in alloc; bob].ok()?;
    Some(Given {
        alice,
        path,
        message,
    })
}

fn side_of(alloc: Global, me: u32) -> Option<Side> {
    let home = Home::of(alloc, DIRECTORY)?;
    match Desk::made(alloc, home, me, &[])? {
        Ok(desk) => Some(Side {
            desk,
            waiting: Vec::new(alloc),
        }),
        Err(_) => None,
    }
}

/// The two before the first message.
pub(crate) fn pair_of(alloc: Global) -> Option<Pair> {
    let alfa = side_of(alloc, 0)?;
    let beta = side_of(alloc, 1)?;
    Some(Pair {
        alloc,
        alfa,
        beta,
        now: BEGIN,
        spent: NOTHING,
    })
}

/// How long the calls took by which so many messages came to their end. Seals of the same providers price the letters.
pub(crate) fn play(
    pair: &mut Pair,
    clock: &impl Clock,
    given: &Given,
    seals: &Home,
    messages: u64,
) -> Option<Spent> {
    for _ in 0..messages / BATCH {
        pair.batch(clock, given, seals)?;
    }
    Some(pair.spent)
}

impl Pair {
    pub(crate) fn sides(self) -> (Side, Side) {
        let Pair {
            alloc: _,
            alfa,
            beta,
            now: _,
            spent: _,
        } = self;
        (alfa, beta)
    }

    /// Fifty messages to their end, and in how many rounds.
    fn batch(&mut self, clock: &impl Clock, given: &Given, seals: &Home) -> Option<u64> {
        let start = Instant::now(clock).ok()?;
        self.submit_all(given)?;
        let took = since(clock, start)?;
        self.spent.submitting = self.spent.submitting.saturating_add(took);
        for rounds in 0..100 {
            if self.round(clock, seals)? == 0 {
                return Some(rounds);
            }
        }
        None
    }

    fn submit_all(&mut self, given: &Given) -> Option<()> {
        let moment = Moment::new(self.now)?;
        for _ in 0..BATCH {
            self.submit(given, moment)?;
        }
        Some(())
    }

    fn submit(&mut self, given: &Given, moment: Moment) -> Option<()> {
        let (path, message) = (given.path.as_slice(), given.message.as_slice());
        if path.is_empty() || path.len() > 1 || message.len() > 1_000_000 {
            return None;
        }
        match self.alfa.desk.submit(moment, &given.alice, path, message) {
            Ok(Submitted::Accepted(_)) => Some(()),
            _ => None,
        }
    }

    /// How many letters are put in a round.
    fn round(&mut self, clock: &impl Clock, seals: &Home) -> Option<u64> {
        self.now = self.now.saturating_add(1);
        let moment = Moment::new(self.now)?;
        let from_alfa = LINK.saturating_sub(self.beta.waiting.len());
        let from_beta = LINK.saturating_sub(self.alfa.waiting.len());
        let mut spent = self.spent;
        let to_beta = self.alfa.turn(self.alloc, clock, &mut spent, moment, 1, from_alfa)?;
        let to_alfa = self.beta.turn(self.alloc, clock, &mut spent, moment, 0, from_beta)?;
        spent.price(self.alloc, clock, seals.sealer(), &to_beta)?;
        spent.price(self.alloc, clock, seals.sealer(), &to_alfa)?;
        self.spent = spent;
        let put = to_beta.len().saturating_add(to_alfa.len());
        self.beta.waiting = to_beta;
        self.alfa.waiting = to_alfa;
        Some(put as u64)
    }
}

impl Side {
    pub(crate) fn into_desk(self) -> Desk {
        let Side { desk, waiting: _ } = self;
        desk
    }

    /// Handles what waits, decides, and puts what is due to the other.
    fn turn(
        &mut self,
        alloc: Global,
        clock: &impl Clock,
        spent: &mut Spent,
        moment: Moment,
        to: u32,
        room: usize,
    ) -> Option<Vec<Frame>> {
        let frames = mem::replace(&mut self.waiting, Vec::new(alloc));
        let start = Instant::now(clock).ok()?;
        self.take(moment, &frames)?;
        spent.arriving = spent.arriving.saturating_add(since(clock, start)?);
        spent.arrivals = spent.arrivals.saturating_add(frames.len() as u64);
        let start = Instant::now(clock).ok()?;
        self.decide(moment)?;
        spent.deciding = spent.deciding.saturating_add(since(clock, start)?);
        let start = Instant::now(clock).ok()?;
        let put = self.desk.put_due(to, room).ok()?;
        self.desk.end_turn();
        spent.putting = spent.putting.saturating_add(since(clock, start)?);
        Some(put)
    }

    fn take(&mut self, moment: Moment, frames: &[Frame]) -> Option<()> {
        for frame in frames {
            self.desk.arrive(moment, frame.bytes()).ok()?;
        }
        Some(())
    }

    fn decide(&mut self, moment: Moment) -> Option<()> {
        for _ in 0..1000 {
            if self.desk.decide_next(moment).ok()?.is_none() {
                return Some(());
            }
        }
        None
    }
}

impl Spent {
    /// Counts letters, and what each costs at least.
    fn price(
        &mut self,
        alloc: Global,
        clock: &impl Clock,
        sealer: &HmacSealer,
        letters: &[Frame],
    ) -> Option<()> {
        let start = Instant::now(clock).ok()?;
        for letter in letters {
            least(alloc, sealer, letter.bytes())?;
            self.bytes = self.bytes.saturating_add(letter.bytes().len() as u64);
        }
        self.least = self.least.saturating_add(since(clock, start)?);
        self.letters = self.letters.saturating_add(letters.len() as u64);
        Some(())
    }
}

/// A letter's tag, made where it is put and once more where it arrives, and its base64.
fn least(alloc: Global, sealer: &HmacSealer, letter: &[u8]) -> Option<()> {
    let tag = sealer.tag(0, letter);
    if !sealer.agrees(0, letter, &tag) {
        return None;
    }
    let text = STANDARD.encode(alloc, letter).ok()?;
    if text.len() < letter.len() {
        return None;
    }
    Some(())
}
'''

PROGRAM = r'''//! Plays messages between two providers over disks in memory, opens both again, and prints how long all took.
#![tactic(auto)]

mod common;
mod desk;
mod pairs;

use common::{DIRECTORY, since, word};
use desk::Home;
use pairs::{Given, Pair, Side, Spent, given_of, pair_of, play};
use std::io;
use std::time::{Clock, Instant};

fn main(rt: HostRuntime) -> Result<(), io::Error> {
    let (messages, lines) = (word(&rt, 1)?, word(&rt, 2)?);
    if messages == 0 {
        return Ok(());
    }
    match (given_of(rt.alloc(), lines), Home::of(rt.alloc(), DIRECTORY)) {
        (Some(given), Some(seals)) => measure(&rt, &given, &seals, messages),
        _ => Ok(()),
    }
}

fn measure(rt: &HostRuntime, given: &Given, seals: &Home, messages: u64) -> Result<(), io::Error> {
    match pair_of(rt.alloc()) {
        Some(pair) => print_pair(rt, pair, given, seals, messages),
        None => Ok(()),
    }
}

fn print_pair(
    rt: &HostRuntime,
    mut pair: Pair,
    given: &Given,
    seals: &Home,
    messages: u64,
) -> Result<(), io::Error> {
    if let Some(spent) = play(&mut pair, rt, given, seals, messages) {
        print_spent(rt, spent)?;
    }
    let (alfa, beta) = pair.sides();
    print_opened(rt, opened(rt, alfa))?;
    print_opened(rt, opened(rt, beta))
}

fn print_opened(rt: &HostRuntime, opened: Option<(u128, u64, u64)>) -> Result<(), io::Error> {
    match opened {
        Some((took, entries, bytes)) => println!(rt; "{took} {entries} {bytes}"),
        None => println!(rt; "not opened"),
    }
}

fn print_spent(rt: &HostRuntime, spent: Spent) -> Result<(), io::Error> {
    let Spent {
        submitting,
        arriving,
        arrivals,
        deciding,
        putting,
        letters,
        bytes,
        least,
    } = spent;
    println!(rt; "{submitting} {arriving} {arrivals} {deciding}")?;
    println!(rt; "{putting} {letters} {bytes} {least}")
}

/// How long a provider takes to be opened again over its disk, and how many entries and bytes its journal has.
fn opened(clock: &impl Clock, side: Side) -> Option<(u128, u64, u64)> {
    let start = Instant::now(clock).ok()?;
    let (desk, _) = side.into_desk().reopened()?;
    let took = since(clock, start)?;
    let figures = desk.figures();
    Some((took, figures.entries, figures.fill))
}
'''

FILES = {"src/main.rt": PROGRAM, "src/common.rt": COMMON, "src/desk.rt": stage.DESK, "src/pairs.rt": PAIR}


def played(program, messages, lines):
    """What one run printed, as numbers, and its peak memory in MB."""
    with tempfile.TemporaryFile() as out:
        child = subprocess.Popen([program, str(messages), str(lines)], stdout=out)
        _, status, usage = os.wait4(child.pid, 0)
        out.seek(0)
        numbers = [int(word) for word in out.read().split()]
    if status or len(numbers) != 14 or numbers[9] != 3 * messages + 1 or numbers[12] != 3 * messages + 1:
        sys.exit("not all messages came to their end")
    return numbers, usage.ru_maxrss / 1024
