//! A plain solver of PuzzleScript's levels, and a player, to measure the proved ones by.

mod board;
mod choices;
mod engine;
mod frames;
mod game;
mod masks;
mod names;
mod packing;
mod patterns;
mod rule_lines;
mod session;
mod solving;
mod stage;
mod states;
mod text;
mod turns;
mod words;

use game::{Game, read_game};
use std::io::{Read, Write};
use std::process::ExitCode;

const USAGE: &str = "usage: plain_solver GAME --keys FILE
       plain_solver GAME --solve [--level N] [--states N] [--counts]

Plays keys and writes what a run writes, or says of each level whether directions and `x` win it, and in how few.
";

fn main() -> ExitCode {
    let words: Vec<String> = std::env::args().skip(1).collect();
    match act(&words) {
        Ok(code) => code,
        Err(said) => {
            eprint!("{said}");
            ExitCode::from(2)
        }
    }
}

/// What is asked of a game.
enum Asked {
    Play { keys: Vec<u8> },
    Solve(solving::Question),
}

fn act(words: &[String]) -> Result<ExitCode, String> {
    let Some((path, words)) = words.split_first() else {
        return Err(USAGE.to_string());
    };
    let asked = asked(words)?;
    let game = match read_game(&read_file(path)?) {
        Ok(game) => game,
        Err(fault) => {
            eprintln!("line {}: {}", fault.line, fault.said);
            return Ok(ExitCode::from(1));
        }
    };
    let objects = game.names.layers.len();
    let told = match (objects, masks::move_words(game.names.layer_count)) {
        (..=64, 1) => answer::<1, 1>(&game, &asked),
        (..=128, ..=3) => answer::<2, 3>(&game, &asked),
        _ => answer::<8, 11>(&game, &asked),
    };
    std::io::stdout().write_all(&told).map_err(|error| format!("{error}\n"))?;
    Ok(ExitCode::SUCCESS)
}

fn answer<const N: usize, const M: usize>(game: &Game, asked: &Asked) -> Vec<u8> {
    match asked {
        Asked::Play { keys } => session::play::<N, M>(game, keys),
        Asked::Solve(question) => solving::solve::<N, M>(game, question),
    }
}

fn asked(words: &[String]) -> Result<Asked, String> {
    let mut words = words.iter().map(String::as_str);
    let mut question = solving::Question { level: None, limit: 1_000_000, counts: false };
    match words.next() {
        Some("--keys") => {
            let path = words.next().ok_or(USAGE)?;
            return Ok(Asked::Play { keys: read_file(path)? });
        }
        Some("--solve") => {}
        _ => return Err(USAGE.to_string()),
    }
    while let Some(word) = words.next() {
        let mut number = || words.next().and_then(|word| word.parse().ok()).ok_or(USAGE);
        match word {
            "--level" => question.level = Some(number()?),
            "--states" => question.limit = number()?,
            "--counts" => question.counts = true,
            _ => return Err(USAGE.to_string()),
        }
    }
    Ok(Asked::Solve(question))
}

fn read_file(path: &str) -> Result<Vec<u8>, String> {
    let mut bytes = Vec::new();
    let result = match path {
        "-" => std::io::stdin().read_to_end(&mut bytes).map(|_| ()),
        _ => std::fs::read(path).map(|read| bytes = read),
    };
    result.map(|()| bytes).map_err(|error| format!("{path}: {error}\n"))
}
