//! Storms: scripts of five nodes in which everything goes wrong in one way, in every round.
use crate::base::key_of;
use crate::draws::Pcg;
use crate::script;
use crate::world::{Status, World};
use std::fmt::Write;

/// What goes wrong: every message comes three times in reversed order; none comes; a cut after every
/// apply; a transfer in every round; each node is removed in turn; an election in every round; a split in
/// every round; all of these in turns.
pub const KINDS: [&str; 8] =
    ["thrice", "silence", "cuts", "transfers", "removals", "elections", "splits", "all"];

const NODES: u8 = 5;
const ROUNDS: u32 = 84;
const CLIENTS: u16 = 8;

struct Storm {
    world: World,
    draws: Pcg,
    text: String,
    lines: u32,
    handled: [usize; NODES as usize],
    sent: [u32; CLIENTS as usize + 1],
}

impl Storm {
    fn new(number: u64) -> Storm {
        Storm {
            world: World::start(NODES),
            draws: Pcg::new(number, 5),
            text: format!("cluster {NODES}\n"),
            lines: 1,
            handled: [0; NODES as usize],
            sent: [0; CLIENTS as usize + 1],
        }
    }

    fn below(&mut self, n: u32) -> u32 {
        self.draws.next_word() % n
    }

    /// A line is written, and played, so that later lines can name what there is.
    fn line(&mut self, line: String) {
        self.lines += 1;
        for (_, what) in script::read(&line).expect("a line of a storm") {
            let _ = self.world.play(self.lines, &what);
        }
        let _ = writeln!(self.text, "{line}");
    }

    fn is_live(&self, node: u8, range: u8) -> bool {
        matches!(self.world.nodes[node as usize - 1].seats[range as usize], Status::Live(_))
    }

    fn has_entry(&self, node: u8, range: u8) -> bool {
        match &self.world.nodes[node as usize - 1].seats[range as usize] {
            Status::Live(replica) => replica.has_entry(),
            _ => false,
        }
    }

    fn live(&self) -> Vec<(u8, u8)> {
        let all = (1..=NODES).flat_map(|node| (0..8).map(move |range| (node, range)));
        all.filter(|&(node, range)| self.is_live(node, range)).collect()
    }

    /// Who holds the lease of a key's range, as the replica says that has applied most of it; or any node.
    fn holder_of(&mut self, key: char) -> (u8, u8) {
        let key = key_of(&key.to_string()).expect("a key");
        let replicas = self.world.nodes.iter().flat_map(|node| node.seats.iter().zip(0u8..));
        let live = replicas.filter_map(|(seat, range)| match seat {
            Status::Live(replica) if replica.desc.start <= key && key < replica.desc.end => Some((replica, range)),
            _ => None,
        });
        let holder = live.max_by_key(|(replica, _)| replica.applied).map(|(replica, range)| (replica.lease.holder, range));
        match holder {
            Some(place) if self.below(5) > 0 => place,
            _ => (1 + self.below(NODES as u32) as u8, self.below(3) as u8),
        }
    }

    fn send_some(&mut self) {
        for client in 1..=CLIENTS {
            let key = (b'a' + self.below(26) as u8) as char;
            let (node, range) = self.holder_of(key);
            if self.sent[client as usize] > 0 && self.below(3) == 0 {
                let seq = 1 + self.below(self.sent[client as usize]);
                self.line(format!("again {node} {range} {client} {seq}"));
            } else {
                self.sent[client as usize] += 1;
                let by = 1 + self.below(9);
                self.line(format!("send {node} {range} {client} add {key} {by}"));
            }
        }
    }

    fn deliver_all(&mut self, times: usize) {
        for sender in 1..=NODES {
            let end = self.world.nodes[sender as usize - 1].sent.len();
            let first = self.handled[sender as usize - 1];
            self.handled[sender as usize - 1] = end;
            for _ in 0..times {
                for number in (first + 1..=end).rev() {
                    self.line(format!("deliver {sender} {number}"));
                }
            }
        }
    }

    fn apply_all(&mut self, cuts: bool) {
        for (node, range) in self.live() {
            while self.has_entry(node, range) {
                self.line(format!("apply {node} {range}"));
                if cuts {
                    self.line(format!("cut {node} {range}"));
                }
            }
        }
    }

    fn trouble(&mut self, kind: &str, round: u32) {
        let node = 1 + (round % NODES as u32);
        match kind {
            "transfers" => {
                for holder in 1..=NODES {
                    self.line(format!("transfer {holder} 0 {node}"));
                }
            }
            "removals" if round % 12 == 11 => self.line(format!("remove {} 0", 1 + (round / 12) % NODES as u32)),
            "elections" => self.line(format!("tick {node} 20")),
            "splits" => {
                let key = (b'a' + (round % 26) as u8) as char;
                let client = 1 + round % CLIENTS as u32;
                let (node, range) = self.holder_of(key);
                self.sent[client as usize] += 1;
                self.line(format!("send {node} {range} {client} split {key}{round}"));
            }
            _ => {}
        }
    }

    fn round(&mut self, kind: &str, round: u32) {
        self.trouble(kind, round);
        self.send_some();
        for (node, range) in self.live() {
            self.line(format!("flush {node} {range}"));
        }
        for node in 1..=NODES {
            self.line(format!("tick {node} 1"));
        }
        match kind {
            "silence" => {}
            "thrice" => self.deliver_all(3),
            _ => self.deliver_all(1),
        }
        self.apply_all(kind == "cuts");
    }
}

/// The storm of a kind, and its number.
pub fn script(kind: &str, number: u64) -> Option<String> {
    let place = KINDS.iter().position(|&one| one == kind)?;
    let mut storm = Storm::new(number);
    for round in 0..ROUNDS {
        let kind = if kind == "all" { KINDS[round as usize % 7] } else { KINDS[place] };
        storm.round(kind, round);
    }
    storm.text.push_str("end\n");
    Some(storm.text)
}
