//! Reads a system, minimises it with the stripped crates, writes the result, and reports how many rounds and visits
//! (counted reads of a transition) this took.

mod text;

use lts::{Counter, Labels, Lts, Meter};
use std::io::Write;
use theory::Relation;

fn run(relation: Relation, file: &str) -> Result<(), String> {
    let bytes = std::fs::read(file).map_err(|error| error.to_string())?;
    let system = text::read(&bytes, &[])?;
    let mut labels = Labels::new(kit::Global);
    for label in &system.labels {
        labels.intern(label).map_err(|_| "a label that cannot be added")?;
    }
    let given: Lts<Counter> = Lts::build(kit::Global, labels, system.first, system.states, kit::Vec(system.steps)).map_err(|_| "memory")?;
    let mut meter = Counter::new();
    let smallest = quotient::minimise(kit::Global, &given, relation, &mut meter).map_err(|_| "memory")?;
    eprintln!("rounds {} visits {}", meter.rounds(), meter.visits());
    let mut lines = Vec::new();
    for state in 0..smallest.states() {
        let (start, end) = smallest.row(state);
        let mut row: Vec<_> = (start..end).map(|place| smallest.edge(place, &mut Counter::new())).map(|(k, t)| (smallest.labels().text(k), t)).collect();
        row.sort_unstable();
        lines.extend(row.into_iter().map(|(label, target)| (state, text::spelled(label), target)));
    }
    let mut out = std::io::BufWriter::new(std::io::stdout().lock());
    let mut written = writeln!(out, "des (0, {}, {})", lines.len(), smallest.states());
    for (source, label, target) in lines {
        written = written.and_then(|()| writeln!(out, "({source}, {}, {target})", String::from_utf8_lossy(&label)));
    }
    written.and_then(|()| out.flush()).map_err(|error| error.to_string())
}

fn main() {
    let words: Vec<String> = std::env::args().skip(1).collect();
    let words: Vec<&str> = words.iter().map(String::as_str).collect();
    let done = match words[..] {
        ["min", "--relation", "strong", file] => run(Relation::Strong, file),
        ["min", "--relation", "branching", file] => run(Relation::Branching, file),
        _ => Err("usage: tool min --relation strong|branching FILE".into()),
    };
    if let Err(fault) = done {
        eprintln!("tool: {fault}");
        std::process::exit(2);
    }
}
