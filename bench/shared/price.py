"""A program that prices letters: what HMAC-SHA-256 of each takes, as it is put and as it arrives, and its base64; by the
code that seals here, or as RFC 2104, section 2 has it, with the pads of the key hashed for each tag."""

import pair

USES = ["pec_types", "pec_directory", "pec_seal", "pec_trade", "base64", "sha2"]
# A message comes to its end by 5.4 letters, as the lines of its script tell, of so many bytes at so many lines.
LETTERS, BYTES = 5.4, {0: 1192, 50: 3164}

PROGRAM = r'''//! Prices letters: HMAC-SHA-256 of each as it is put and as it arrives, and its base64.
#![tactic(auto)]

mod common;

use base64::engine::general_purpose::STANDARD;
use common::{DIRECTORY, since, word};
use pec_directory::Directory;
use pec_seal::{HmacSealer, Sealer};
use pec_trade::sealer_of;
use sha2::{Digest, Sha256};
use std::alloc::Global;
use std::io;
use std::time::{Clock, Instant};

fn main(rt: HostRuntime) -> Result<(), io::Error> {
    let (letters, length, plain) = (word(&rt, 1)?, word(&rt, 2)?, word(&rt, 3)?);
    if letters == 0 {
        return Ok(());
    }
    match priced(rt.alloc(), &rt, letters, length, plain > 0) {
        Some(took) => println!(rt; "{took}"),
        None => Ok(()),
    }
}

/// How long so many letters of this length take.
fn priced(
    alloc: Global,
    clock: &impl Clock,
    letters: u64,
    length: u64,
    plain: bool,
) -> Option<u128> {
    let directory = Directory::read(alloc, DIRECTORY).ok()?;
    let sealer = sealer_of(alloc, &directory).ok()?;
    let letter = vec![in alloc; b'x'; length as usize].ok()?;
    let start = Instant::now(clock).ok()?;
    for _ in 0..letters {
        least(alloc, &sealer, &letter, plain)?;
    }
    since(clock, start)
}

/// What a letter costs at least: two tags, and its base64.
fn least(alloc: Global, sealer: &HmacSealer, letter: &[u8], plain: bool) -> Option<()> {
    if !is_tagged(sealer, letter, plain) {
        return None;
    }
    let text = STANDARD.encode(alloc, letter).ok()?;
    if text.len() < letter.len() {
        return None;
    }
    Some(())
}

/// Makes a letter's tag as where it is put, and once more as where it arrives; plain ones by two keys, so that both are made.
fn is_tagged(sealer: &HmacSealer, letter: &[u8], plain: bool) -> bool {
    if plain {
        return plain_tag([b'k'; 64], letter) != plain_tag([b'l'; 64], letter);
    }
    let tag = sealer.tag(0, letter);
    sealer.agrees(0, letter, &tag)
}

/// HMAC-SHA-256 under a key that fills a block.
fn plain_tag(key: [u8; 64], letter: &[u8]) -> [u8; 32] {
    let mut inner = Sha256::new_with_prefix(padded(key, 0x36));
    inner.update(letter);
    let mut outer = Sha256::new_with_prefix(padded(key, 0x5c));
    outer.update(inner.finalize());
    outer.finalize()
}

fn padded(mut block: [u8; 64], pad: u8) -> [u8; 64] {
    for byte in block.iter_mut() {
        *byte ^= pad;
    }
    block
}
'''

FILES = {"src/main.rt": PROGRAM, "src/common.rt": pair.COMMON}
