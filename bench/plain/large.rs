//! Scripts to measure by: about 65,000 lines on one node, one for each habit that could be slow; and
//! commands over several nodes and ranges, to see how cost grows.
use std::fmt::Write;

pub const KINDS: [&str; 12] = [
    "one-key", "ascending", "scattered", "batches", "adds", "pending-20000", "pending-65000", "conflicts",
    "peeks", "moves", "wipes", "texts",
];

const GROUPS: u64 = 21_800;

/// A key that no other number below 2^32 has, in an order that is not that of the numbers.
fn scattered(n: u64) -> String {
    format!("s{:08x}", (n as u32).wrapping_mul(2_654_435_761))
}

fn groups(text: &mut String, request: impl Fn(u64) -> String) {
    for n in 0..GROUPS {
        let _ = write!(text, "send 1 0 {} {}\nflush 1 0\napply 1 0\n", 1 + n % 64, request(n));
    }
}

fn batches(text: &mut String, request: impl Fn(u64) -> String) {
    for b in 0..1_985 {
        for n in 16 * b..16 * b + 16 {
            let _ = writeln!(text, "send 1 0 {} {}", 1 + n % 64, request(n));
        }
        text.push_str("flush 1 0\n");
        text.push_str(&"apply 1 0\n".repeat(16));
    }
}

fn sends(text: &mut String, count: u64, request: impl Fn(u64) -> String) {
    for n in 0..count {
        let _ = writeln!(text, "send 1 0 {} {}", 1 + n % 64, request(n));
    }
}

pub fn script(kind: &str) -> Option<String> {
    let mut text = String::from("cluster 1\n");
    let t = &mut text;
    match kind {
        "one-key" => groups(t, |n| format!("put a {n}")),
        "ascending" => groups(t, |n| format!("put k{n:08} {n}")),
        "scattered" => groups(t, |n| format!("put {} {n}", scattered(n))),
        "batches" => batches(t, |n| format!("put {} {n}", scattered(n))),
        "adds" => batches(t, |n| format!("add a{} {n}", n % 997)),
        "pending-20000" => {
            sends(t, 20_000, |n| format!("put {} {n}", scattered(n)));
            sends(t, 20_000, |n| format!("put {} {n}", scattered(n)));
            groups(t, |n| format!("put k{n} 1"));
            t.truncate(t.lines().take(65_000).map(|l| l.len() + 1).sum());
        }
        "pending-65000" => sends(t, 65_000, |n| format!("put {} {n}", scattered(n))),
        "conflicts" => sends(t, 65_000, |n| format!("put k{} {n}", n % 1_000)),
        "peeks" => {
            sends(t, 16, |n| format!("put k{n} {n}"));
            t.push_str("flush 1 0\n");
            for n in 0..64_900 {
                let _ = match n % 8 {
                    0 => writeln!(t, "apply 1 0"),
                    _ => writeln!(t, "peek 1 0 k{}", n % 16),
                };
            }
        }
        "moves" => batches(t, |n| format!("move a{} b{} 0", n % 997, n % 991)),
        "wipes" => groups(t, |n| match n % 4 {
            3 => format!("wipe k{:08} k{:08}", n - 3, n),
            _ => format!("put k{n:08} {n}"),
        }),
        "texts" => groups(t, |n| match n % 2 {
            0 => format!("put {} 'text-of-{n}", scattered(n / 2)),
            _ => format!("cput {} 'text-of-{} {n}", scattered(n / 2), n - 1),
        }),
        _ => return None,
    }
    text.push_str("end\n");
    Some(text)
}

/// So many commands over the ranges of so many nodes, sixteen at a time, each sixteen settled in four
/// rounds, with this percentage of messages lost.
pub fn cost(nodes: u8, ranges: u8, commands: u64, loss: u8) -> String {
    let mut text = format!("cluster {nodes}\nloss {loss} 7\n");
    let splits = [(0, "k500", 1), (0, "k250", 2), (1, "k750", 3)];
    for (left, key, _) in &splits[..ranges as usize - 1] {
        let _ = write!(text, "send 1 {left} 64 split {key}\nsettle 30\n");
    }
    let starts: &[(u64, u8)] = match ranges {
        1 => &[(0, 0)],
        2 => &[(0, 0), (500, 1)],
        3 => &[(0, 0), (250, 2), (500, 1)],
        _ => &[(0, 0), (250, 2), (500, 1), (750, 3)],
    };
    for n in 0..commands {
        let x = n * 619 % 1000;
        let range = starts.iter().rev().find(|s| s.0 <= x).map_or(0, |s| s.1);
        let _ = writeln!(text, "send 1 {range} {} add k{x:03} 1", 1 + n % 63);
        if n % 16 == 15 {
            text.push_str("settle 4\n");
        }
    }
    text.push_str("settle 100\nend\n");
    text
}
