//! Scripts of so many lines over five nodes, to see that time grows with their events alone.
use crate::script;
use crate::world::{Status, World};
use std::fmt::Write;

pub const KINDS: [&str; 2] = ["stepped", "settled"];

/// Lines as they are written, and the world that they leave, so that a line names what there is.
struct Lines {
    text: String,
    count: usize,
    most: usize,
    world: World,
    taken: [usize; 5],
}

impl Lines {
    fn start(most: usize) -> Lines {
        Lines { text: "cluster 5\n".to_string(), count: 1, most, world: World::start(5), taken: [0; 5] }
    }

    /// Whether there is room for a line before the last one.
    fn goes_on(&self) -> bool {
        self.count + 1 < self.most
    }

    fn line(&mut self, line: &str) {
        if !self.goes_on() {
            return;
        }
        let _ = writeln!(self.text, "{line}");
        self.count += 1;
        for (_, played) in script::read(line).unwrap_or_default() {
            let _ = self.world.play(self.count as u32, &played);
        }
    }

    fn put(&mut self, n: u64) {
        self.line(&format!("send 1 0 {} put k{:05} {n}", 1 + n % 64, n * 7_919 % 65_536));
    }

    /// Each message that was not delivered comes, sender by sender, until none is left.
    fn deliver_all(&mut self) {
        while let Some(at) = (0..5).find(|at| self.taken[*at] < self.world.nodes[*at].sent.len()) {
            self.taken[at] += 1;
            self.line(&format!("deliver {} {}", at + 1, self.taken[at]));
            if !self.goes_on() {
                return;
            }
        }
    }

    /// Each node applies what is committed.
    fn apply_all(&mut self) {
        for node in 1..=5 {
            while self.goes_on() && has_entry(&self.world, node) {
                self.line(&format!("apply {node} 0"));
            }
        }
    }

    fn tick_all(&mut self) {
        for node in 1..=5 {
            self.line(&format!("tick {node} 1"));
        }
    }
}

fn has_entry(world: &World, node: u8) -> bool {
    match &world.nodes[node as usize - 1].seats[0] {
        Status::Live(replica) => replica.has_entry(),
        _ => false,
    }
}

/// A put, its flush, each message that follows, and what is committed applied; at every fourth the nodes
/// tick.
fn step(lines: &mut Lines, n: u64) {
    lines.put(n);
    lines.line("flush 1 0");
    lines.deliver_all();
    lines.apply_all();
    if n % 4 == 3 {
        lines.tick_all();
        lines.deliver_all();
    }
}

/// Fifteen puts and four rounds.
fn round(lines: &mut Lines, n: u64) {
    for k in 15 * n..15 * n + 15 {
        lines.put(k);
    }
    lines.line("settle 4");
}

pub fn script(kind: &str, most: usize) -> Option<String> {
    let part = match kind {
        "stepped" => step,
        "settled" => round,
        _ => return None,
    };
    let mut lines = Lines::start(most);
    let mut n = 0;
    while lines.goes_on() {
        part(&mut lines, n);
        n += 1;
    }
    lines.text.push_str("end\n");
    Some(lines.text)
}
