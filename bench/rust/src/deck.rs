//! Decks, as docs/DECKS.md has them, of the lines that a measure needs.

use crate::channel::{Answer, Channel};
use crate::volume::Volume;
use std::fmt::Write;
use std::io::{self, Read};

const BLOCK: usize = 2048;

/// Why a deck was not played.
type Refusal = String;

/// What the words ask for: bytes of storage, and drives with the paths of their volumes.
struct Setting {
    storage: usize,
    drives: Vec<(u8, String)>,
}

fn setting(words: &[String]) -> Option<Setting> {
    let [run, rest @ ..] = words else { return None };
    let (storage, drives) = match rest {
        [option, size, drives @ ..] if option == "--storage" => (size.parse().ok()?, drives),
        drives => (65_536, drives),
    };
    let drives = drives.iter().map(|it| {
        let (address, path) = it.split_once('=')?;
        Some((u8::from_str_radix(address, 16).ok()?, path.to_owned()))
    });
    (run == "run").then_some(Setting {
        storage,
        drives: drives.collect::<Option<_>>()?,
    })
}

fn number(word: Option<&&str>) -> Option<usize> {
    usize::from_str_radix(word?, 16).ok()
}

fn bytes(words: &[&str]) -> Option<Vec<u8>> {
    let digits = words.concat();
    let pairs = (0..digits.len()).step_by(2);
    pairs.map(|it| u8::from_str_radix(digits.get(it..it + 2)?, 16).ok()).collect()
}

fn shown(name: &str, address: usize, (code, stored): Answer) -> String {
    let mut line = format!("{name} {address:03X} CC {code}");
    for word in stored.chunks(4) {
        line.push(' ');
        word.iter().for_each(|it| line.push_str(&format!("{it:02X}")));
    }
    line
}

// What a line answers.
fn answer<const FUSED: bool>(channel: &mut Channel<FUSED>, words: &[&str]) -> Option<String> {
    let kept = |is_kept: bool| if is_kept { "OK" } else { "OUTSIDE" };
    match *words.first()? {
        "STORE" => {
            let held = bytes(words.get(2..)?)?;
            Some(format!("STORE {}", kept(channel.storage.put(number(words.get(1))?, &held))))
        }
        "KEY" => {
            let key = u8::from_str_radix(words.get(2)?, 16).ok()?;
            let place = channel.storage.keys.get_mut(number(words.get(1))? / BLOCK);
            Some(format!("KEY {}", kept(place.map(|it| *it = key).is_some())))
        }
        "STEP" => Some(format!("STEP {}", channel.step(words.get(1)?.parse().ok()?))),
        "SIO" => {
            let address = number(words.get(1))?;
            let answer = channel.start(u16::try_from(address).ok()?);
            Some(shown("SIO", address, answer))
        }
        "TIO" => {
            let address = number(words.get(1))?;
            let answer = channel.test(u16::try_from(address).ok()?);
            Some(shown("TIO", address, answer))
        }
        _ => None,
    }
}

fn mounted(path: &str) -> Result<Volume, Refusal> {
    let held = std::fs::read(path).map_err(|why| format!("{path}: {why}"))?;
    Volume::new(held).ok_or_else(|| format!("{path}: no image in one file"))
}

/// Plays the deck of standard input, and prints its answers.
///
/// # Errors
///
/// Words, volumes or lines that are none; nothing is printed then.
pub fn play<const FUSED: bool>(words: &[String]) -> Result<(), Refusal> {
    let setting = setting(words).ok_or("usage: run [--storage BYTES] [UNIT=IMAGE..] < DECK")?;
    let mut channel = Channel::<FUSED>::new(setting.storage);
    for (address, path) in &setting.drives {
        channel.attach(*address, mounted(path)?);
    }
    let (mut text, mut answers) = (String::new(), String::new());
    io::stdin().read_to_string(&mut text).map_err(|why| why.to_string())?;
    for line in text.lines() {
        let words: Vec<&str> = line.split_whitespace().collect();
        let line = answer(&mut channel, &words).ok_or_else(|| format!("no such line here: {line}"))?;
        writeln!(answers, "{line}").map_err(|why| why.to_string())?;
    }
    print!("{answers}");
    Ok(())
}
