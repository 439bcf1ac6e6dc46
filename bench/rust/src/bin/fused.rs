//! Plays a deck at a channel that does whole commands in one piece.

use std::process::ExitCode;

fn main() -> ExitCode {
    let words: Vec<String> = std::env::args().skip(1).collect();
    match unproved_channel::deck::play::<true>(&words) {
        Ok(()) => ExitCode::SUCCESS,
        Err(why) => {
            eprintln!("fused: {why}");
            ExitCode::FAILURE
        }
    }
}
