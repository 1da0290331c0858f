//! `record KIND SEED CALLS FILE` stores answers; `record --replay FILE` runs
//! them through every checker that is built in.

use quarto_yaml_harness::guard::{checkers, with_large_stack};
use quarto_yaml_harness::record::{
    Kind, Replayed, bytes, holds_pairs, pair_words, pairs, replay, replay_pairs, sample,
    stored_call, words,
};
use quarto_yaml_oracle::PRESENT;
use std::process::ExitCode;

const USAGE: &str = "usage: record navigate|damaged-navigate|validate|compile|json SEED CALLS FILE | record --replay FILE";

fn main() -> ExitCode {
    let arguments: Vec<String> = std::env::args().skip(1).collect();
    let result = with_large_stack(move || {
        let words: Vec<&str> = arguments.iter().map(String::as_str).collect();
        match words[..] {
            ["--replay", file] => again(file),
            [kind, seed, calls, file] => store(kind, seed, calls, file),
            _ => Err(USAGE.to_string()),
        }
    });
    quarto_yaml_harness::ended(result)
}

fn store(kind: &str, seed: &str, calls: &str, file: &str) -> Result<(), String> {
    if !PRESENT {
        return Err("record: not run, the original's source is not there".to_string());
    }
    let number = |text: &str| text.parse::<u64>().map_err(|_| USAGE.to_string());
    let (seed, calls) = (number(seed)?, number(calls)? as usize);
    if kind == "json" {
        return store_pairs(seed, calls, file);
    }
    let known = Kind::NAMES.into_iter().find(|(name, _)| *name == kind);
    let (_, kind) = known.ok_or(USAGE)?;
    let sample = sample(kind, seed, calls)?;
    let stored = sample.groups.iter().flat_map(|group| &group.stored);
    let (calls, by_original) = stored.fold((0, 0), |(all, original), stored| {
        (all + 1, original + usize::from(stored.by_original))
    });
    let bytes = bytes(&words(&sample));
    std::fs::write(file, &bytes).map_err(|error| format!("{file}: {error}"))?;
    println!(
        "record: {file}: {calls} calls over {} tables, {by_original} by the original, {} bytes",
        sample.groups.len(),
        bytes.len()
    );
    Ok(())
}

fn store_pairs(seed: u64, calls: usize, file: &str) -> Result<(), String> {
    let pairs = pairs(seed, calls)?;
    let bytes = bytes(&pair_words(&pairs));
    std::fs::write(file, &bytes).map_err(|error| format!("{file}: {error}"))?;
    let [as_enum, as_unique] = pairs.equal();
    println!(
        "record: {file}: {} pairs over {} tables, {as_enum} equal for enum, {as_unique} for unique, all by the original, {} bytes",
        pairs.count(),
        pairs.groups.len(),
        bytes.len()
    );
    Ok(())
}

fn again(file: &str) -> Result<(), String> {
    let bytes = std::fs::read(file).map_err(|error| format!("{file}: {error}"))?;
    let damaged = || format!("{file}: cannot be replayed");
    if holds_pairs(&bytes) {
        return tell(file, "model", replay_pairs(&bytes).ok_or_else(damaged)?);
    }
    let call = stored_call(&bytes).ok_or_else(damaged)?;
    for (name, checker) in checkers() {
        if !checker.has(call) {
            println!("replay: {file}: {name}: has no such call yet");
            continue;
        }
        let replayed = replay(&bytes, checker.as_ref()).ok_or_else(damaged)?;
        tell(file, name, replayed)?;
    }
    Ok(())
}

fn tell(file: &str, name: &str, replayed: Replayed) -> Result<(), String> {
    println!(
        "replay: {file}: {name}: {} calls, {} by the original, {} wrong",
        replayed.calls, replayed.by_original, replayed.wrong
    );
    match replayed.wrong {
        0 => Ok(()),
        _ => Err(format!("replay: {name} answers otherwise")),
    }
}
