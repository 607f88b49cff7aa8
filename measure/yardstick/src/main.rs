//! A minimiser in plain Rust, about which nothing is proved. It is the baseline of `docs/scale.md`, and
//! `measure/compare` compares its outputs with the outputs of `autbis`. For files that can be read, it writes the same
//! bytes as `autbis min` and `autbis cmp`.
//!
//! Like `autbis`, this program splits blocks by signatures until no block can be split (Blom and Orzan 2003). It need
//! not read every transition in every round: it computes only signatures that can have changed, the largest part of a
//! block keeps the number of the block, and internal cycles are contracted first. With `--every`, it computes the
//! signature of every state in every round.

mod blocks;
mod every;
mod quotient;
mod rows;
mod signatures;
mod text;

use rows::Rows;
use std::io::Write;
use text::System;

fn read_file<T>(file: &str, read: impl Fn(&[u8]) -> Result<T, String>) -> Result<T, String> {
    let text = std::fs::read(file).map_err(|error| error.to_string());
    text.and_then(|text| read(&text)).map_err(|fault| format!("{file}: {fault}"))
}

/// The output of the program: the quotient of one system, or the verdict on two systems.
fn answer(every: bool, branching: bool, hide: Option<&str>, files: &[&str]) -> Result<Vec<u8>, String> {
    let hidden = hide.map_or(Ok(vec![]), |file| read_file(file, text::read_labels))?;
    let mut system = read_file(files[0], |text| text::read(text, &hidden))?;
    let mut second = None;
    if let Some(file) = files.get(1) {
        second = Some(system.add(&read_file(file, |text| text::read(text, &hidden))?));
    }
    let System { first, states, ref labels, ref steps } = system;
    let rows = Rows::of(states, steps.iter().copied());
    let internal = labels.iter().position(|label| branching && label == b"i").map(|k| k as u32);
    // For strong bisimilarity, no step is inert, so each state is a component of its own.
    let found = internal.map(|internal| {
        let (of, count) = rows.components(internal);
        let between = steps.iter().map(|step| (of[step.0 as usize], step.1, of[step.2 as usize]));
        (Rows::of(count, between.filter(|step| step.0 != step.2 || step.1 != internal)), of)
    });
    let (contracted, components) = found.as_ref().map_or((&rows, None), |(rows, of)| (rows, Some(of)));
    let blocks = if every { every::refine(contracted, internal) } else { blocks::refine(contracted, internal) };
    let block_of = |s: u32| blocks[components.map_or(s, |of| of[s as usize]) as usize];
    Ok(match second {
        None => quotient::written(&system, &rows, block_of, contracted, &blocks),
        Some(second) if block_of(first) == block_of(second) => b"TRUE\n".to_vec(),
        Some(_) => b"FALSE\n".to_vec(),
    })
}

fn usage() -> ! {
    eprintln!("usage: yardstick min [--every] [--relation strong|branching] [--hide FILE] FILE");
    eprintln!("       yardstick cmp [--every] [--relation strong|branching] [--hide FILE] FILE FILE");
    std::process::exit(3);
}

fn main() {
    let words: Vec<String> = std::env::args().skip(1).collect();
    let mut words = words.iter().map(String::as_str);
    let command = words.next();
    let (mut every, mut branching, mut hide, mut files) = (false, false, None, vec![]);
    while let Some(word) = words.next() {
        match word {
            "--every" => every = true,
            "--relation" => match words.next() {
                Some(relation @ ("strong" | "branching")) => branching = relation == "branching",
                _ => usage(),
            },
            "--hide" => hide = Some(words.next().unwrap_or_else(|| usage())),
            _ if word.starts_with('-') => usage(),
            _ => files.push(word),
        }
    }
    if !matches!((command, files.len()), (Some("min"), 1) | (Some("cmp"), 2)) {
        usage();
    }
    let written = answer(every, branching, hide, &files)
        .and_then(|text| std::io::stdout().write_all(&text).map(|()| text).map_err(|error| error.to_string()));
    match written {
        Ok(text) => std::process::exit((text == b"FALSE\n").into()),
        Err(fault) => {
            eprintln!("yardstick: {fault}");
            std::process::exit(2);
        }
    }
}
