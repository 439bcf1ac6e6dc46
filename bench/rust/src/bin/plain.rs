//! Plays a deck at a channel that does each command in its phases.

use std::process::ExitCode;

fn main() -> ExitCode {
    let words: Vec<String> = std::env::args().skip(1).collect();
    match unproved_channel::deck::play::<false>(&words) {
        Ok(()) => ExitCode::SUCCESS,
        Err(why) => {
            eprintln!("plain: {why}");
            ExitCode::FAILURE
        }
    }
}
