//! Scripts of races: clients that ask beside one another, leases that are to move, and splits.
use crate::draws::Pcg;
use std::fmt::Write;

struct Draw(Pcg);

/// Keys stand in blocks of sixteen. Splits cut between blocks, so a request of one block is never cut.
const BLOCKS: u32 = 4;

impl Draw {
    fn below(&mut self, n: u32) -> u32 {
        self.0.next_word() % n
    }

    fn value(&mut self) -> String {
        if self.below(6) == 0 { format!("'t{}", self.below(3)) } else { self.below(4).to_string() }
    }

    /// A request of a block. One that is `wide` may reach into the next block, and then it is tried to the last where a split cuts it.
    fn request(&mut self, wide: bool) -> String {
        let block = 16 * self.below(BLOCKS);
        let (one, two) = (block + self.below(16), block + self.below(16));
        let far = if wide { two + 16 * self.below(2) } else { two };
        match self.below(40) {
            0..=7 => format!("put k{one:02} {}", self.value()),
            8..=19 => format!("add k{one:02} {}", self.below(4)),
            20..=23 => {
                let expect = if self.below(3) == 0 { "none".to_string() } else { self.value() };
                format!("cput k{one:02} {expect} {}", self.value())
            }
            24..=27 => format!("del k{one:02}"),
            28..=31 => format!("wipe k{:02} k{:02}", one.min(far), one.max(far) + 1),
            32..=37 => format!("move k{one:02} k{far:02} {}", self.below(3)),
            _ => format!("split k{:02}", 16 * (1 + self.below(BLOCKS - 1))),
        }
    }
}

/// What a race's script sends: `Adds` of one key each, as the measure of speed has it; `Mixed`, with splits and transfers among all kinds
/// of requests; `Wide`, with requests that a split may cut.
#[derive(Clone, Copy, PartialEq, Eq)]
pub enum Kind {
    Adds,
    Mixed,
    Wide,
}

/// A script of one to five nodes, so many clients and so many commands, by its number.
pub fn script(number: u64, nodes: u8, clients: u16, commands: u32, kind: Kind) -> String {
    let mut d = Draw(Pcg::new(number, 5));
    let nodes = nodes as u32;
    let mut text = format!("cluster {nodes}\n");
    for i in 0..commands {
        let node = 1 + d.below(nodes);
        if kind == Kind::Adds {
            let _ = writeln!(text, "send {node} 0 {} add k{:03} 1", 1 + i % clients as u32, d.below(1000));
            continue;
        }
        if d.below(12) == 0 {
            let _ = writeln!(text, "transfer {node} {} {}", d.below(4), 1 + d.below(nodes));
        }
        let client = 1 + d.below(clients as u32);
        let _ = writeln!(text, "send {node} 0 {client} {}", d.request(kind == Kind::Wide));
    }
    text.push_str("end\n");
    text
}

/// A script with so many lines that send, each the first add of a key again.
pub fn sends(count: u32) -> String {
    let mut text = String::from("cluster 1\n");
    for i in 0..count {
        let _ = writeln!(text, "send 1 0 {} add k 1", 1 + i % 64);
    }
    text.push_str("end\n");
    text
}
