//! A plain, unproved program for the same rules as `rp run` and `rp gen`: the measure of speed, and a
//! second reading of the rules. It reads well-formed scripts; any other is refused without a reason.
mod audit;
mod base;
mod draws;
mod large;
mod lines;
mod payload;
mod raft;
mod races;
mod random;
mod replica;
mod report;
mod script;
mod storms;
mod world;

use std::io::{Read, Write};
use std::process::ExitCode;
use world::{Limit, World};

fn play(source: &str) -> Result<World, (u8, String)> {
    let lines = script::read(source).map_err(|line| (3, format!("refused at line {line}\n")))?;
    let Some((_, script::Line::Cluster(nodes))) = lines.first() else {
        return Err((3, "refused without a cluster\n".to_string()));
    };
    let mut world = World::start(*nodes);
    let limit = |l: Limit| match l {
        Limit::Events => (4, "limit events 4194304\n".to_string()),
        Limit::Weight(w) => (4, format!("limit weight {w}\n")),
    };
    for (number, line) in &lines {
        world.play(*number, line).map_err(limit)?;
    }
    world.ended().map_err(limit)?;
    Ok(world)
}

/// The verdict on the report at standard input: of a race, whose script and status these are, or of a run.
fn audited(race: Option<(&str, u8)>) -> (u8, String) {
    let mut text = String::new();
    if std::io::stdin().read_to_string(&mut text).is_err() {
        return (5, String::new());
    }
    let lines = match race.map(|(source, status)| (script::read(source), status)) {
        None => None,
        Some((Ok(lines), status)) => Some((lines, status)),
        Some((Err(line), _)) => return (3, format!("refused at line {line}\n")),
    };
    let race = lines.as_ref().map(|(lines, status)| (lines.as_slice(), *status));
    match audit::Report::read(&text).and_then(|report| audit::audit(race, &report)) {
        Ok((ended, open)) => (0, format!("{ended} ended, {open} open\n")),
        Err(wrong) => (1, format!("{wrong}\n")),
    }
}

fn main() -> ExitCode {
    let words: Vec<String> = std::env::args().skip(1).collect();
    let words: Vec<&str> = words.iter().map(String::as_str).collect();
    let (code, output) = match words.as_slice() {
        ["gen", number, size] => match (number.parse(), size.parse()) {
            (Ok(number), Ok(size)) => (0, draws::script(number, size)),
            _ => (2, "usage\n".to_string()),
        },
        ["large"] => (0, large::KINDS.map(|kind| format!("{kind}\n")).concat()),
        ["large", kind] => large::script(kind).map_or_else(|| (2, "usage\n".to_string()), |text| (0, text)),
        ["lines"] => (0, lines::KINDS.map(|kind| format!("{kind}\n")).concat()),
        ["lines", kind, most] => match most.parse().ok().and_then(|most| lines::script(kind, most)) {
            Some(text) => (0, text),
            None => (2, "usage\n".to_string()),
        },
        ["random", number, "simple", lines] => match (number.parse(), lines.parse()) {
            (Ok(number), Ok(lines)) => (0, random::simple(number, lines)),
            _ => (2, "usage\n".to_string()),
        },
        ["random", number, nodes, lines] => match (number.parse(), nodes.parse(), lines.parse()) {
            (Ok(number), Ok(nodes @ 1..=5), Ok(lines)) => (0, random::script(number, nodes, lines)),
            _ => (2, "usage\n".to_string()),
        },
        ["storms"] => (0, storms::KINDS.map(|kind| format!("{kind}\n")).concat()),
        ["storm", kind, number] => match number.parse().ok().and_then(|number| storms::script(kind, number)) {
            Some(text) => (0, text),
            None => (2, "usage\n".to_string()),
        },
        ["cost", nodes, ranges, commands, loss] => {
            let numbers = (nodes.parse(), ranges.parse(), commands.parse(), loss.parse());
            match numbers {
                (Ok(n @ 1..=5), Ok(r @ 1..=4), Ok(c), Ok(l @ 0..=50)) => (0, large::cost(n, r, c, l)),
                _ => (2, "usage\n".to_string()),
            }
        }
        ["race", number, nodes, clients, commands, kind] => {
            let kind = match *kind {
                "adds" => Some(races::Kind::Adds),
                "mixed" => Some(races::Kind::Mixed),
                "wide" => Some(races::Kind::Wide),
                _ => None,
            };
            match (number.parse(), nodes.parse(), clients.parse(), commands.parse(), kind) {
                (Ok(n), Ok(nodes @ 1..=5), Ok(clients @ 1..=64), Ok(count), Some(kind)) => (0, races::script(n, nodes, clients, count, kind)),
                _ => (2, "usage\n".to_string()),
            }
        }
        ["sends", count] => count.parse().map_or_else(|_| (2, "usage\n".to_string()), |count| (0, races::sends(count))),
        ["audit"] => audited(None),
        ["audit", script, status] => match (std::fs::read_to_string(script), status.parse()) {
            (Ok(script), Ok(status)) => audited(Some((&script, status))),
            _ => (2, "usage\n".to_string()),
        },
        ["run", form @ ..] => {
            let mut source = String::new();
            if std::io::stdin().read_to_string(&mut source).is_err() {
                return ExitCode::from(5);
            }
            match (play(&source), form) {
                (Err(refused), _) => refused,
                (Ok(world), ["--form", "json"]) => (0, report::json(&world)),
                (Ok(world), ["--form", "summary"]) => (0, report::summary(&world)),
                (Ok(world), ["--form", "cost"]) => (0, report::cost(&world)),
                (Ok(world), _) => (0, report::text(&world)),
            }
        }
        _ => (2, "usage\n".to_string()),
    };
    match std::io::stdout().write_all(output.as_bytes()) {
        Ok(()) => ExitCode::from(code),
        Err(_) => ExitCode::from(6),
    }
}
