//! Random scripts, to compare two programs by: every form of line over a few keys, so that commands meet.
use crate::draws::Pcg;
use std::fmt::Write;

const KEYS: [&str; 8] = ["a", "b", "c/1", "k", "m", "m0", "x-y", "z_9"];

struct Draw(Pcg);

impl Draw {
    fn below(&mut self, n: u32) -> u32 {
        self.0.next_word() % n
    }

    fn key(&mut self) -> &'static str {
        KEYS[self.below(8) as usize]
    }

    fn value(&mut self) -> String {
        match self.below(6) {
            0 => "'t".to_string(),
            1 => "18446744073709551615".to_string(),
            _ => self.below(4).to_string(),
        }
    }

    fn request(&mut self, splits: bool) -> String {
        match self.below(if splits { 16 } else { 15 }) {
            0..=3 => format!("put {} {}", self.key(), self.value()),
            4..=7 => format!("add {} {}", self.key(), self.below(4)),
            8 | 9 => {
                let expect = if self.below(3) == 0 { "none".to_string() } else { self.value() };
                format!("cput {} {expect} {}", self.key(), self.value())
            }
            10 => format!("del {}", self.key()),
            11 => {
                let at = self.below(7);
                let end = if self.below(3) == 0 { "~" } else { KEYS[at as usize + 1] };
                format!("wipe {} {end}", KEYS[at as usize])
            }
            12..=14 => format!("move {} {} {}", self.key(), self.key(), self.below(3)),
            _ => format!("split {}", self.key()),
        }
    }
}

/// What has been sent so far, so that lines name what there is.
struct Sent {
    nodes: u32,
    commands: [u32; 4],
    messages: u32,
}

fn line(d: &mut Draw, s: &mut Sent) -> String {
    let node = 1 + d.below(s.nodes);
    let range = if d.below(3) == 0 { d.below(4) } else { 0 };
    let client = 1 + d.below(3);
    let seq = if s.commands[client as usize] == 0 { 0 } else { 1 + d.below(s.commands[client as usize]) };
    match d.below(40) {
        0..=7 => {
            s.commands[client as usize] += 1;
            let word = if d.below(4) == 0 { "admit" } else { "send" };
            format!("{word} {node} {range} {client} {}", d.request(true))
        }
        8 | 9 if seq > 0 => format!("again {node} {range} {client} {seq}"),
        10 if seq > 0 => format!("draw {client} {seq}"),
        11 if seq > 0 => format!("publish {client} {seq}"),
        12 => format!("ask {node} {range}"),
        13 => format!("transfer {node} {range} {}", 1 + d.below(s.nodes)),
        14..=18 => format!("flush {node} {range}"),
        19..=22 => format!("apply {node} {range}"),
        23 => format!("cut {node} {range}"),
        24 if d.below(12) == 0 => format!("remove {node} {range}"),
        25 => format!("tick {node} {}", 1 + d.below(20)),
        26 => format!("peek {node} {range} {}", d.key()),
        27 => format!("loss {} {}", d.below(51), d.below(9)),
        28 if d.below(4) == 0 => format!("restart {node}"),
        29..=31 => format!("settle {}", 1 + d.below(6)),
        _ => {
            s.messages += 1;
            format!("deliver {node} {}", 1 + d.below(s.messages))
        }
    }
}

pub fn script(number: u64, nodes: u8, lines: u32) -> String {
    let mut d = Draw(Pcg::new(number, 3));
    let mut s = Sent { nodes: nodes as u32, commands: [0; 4], messages: 1 };
    let mut text = format!("cluster {nodes}\n");
    for _ in 0..lines {
        let _ = writeln!(text, "{}", line(&mut d, &mut s));
    }
    text.push_str("end\n");
    text
}

/// The forms that one node has without time, leases and splits.
pub fn simple(number: u64, lines: u32) -> String {
    let mut d = Draw(Pcg::new(number, 4));
    let mut text = String::from("cluster 1\n");
    for _ in 0..lines {
        let _ = match d.below(10) {
            0..=4 => writeln!(text, "send 1 0 {} {}", 1 + d.below(3), d.request(false)),
            5 | 6 => writeln!(text, "flush 1 0"),
            7 | 8 => writeln!(text, "apply 1 0"),
            _ => writeln!(text, "peek 1 0 {}", d.key()),
        };
    }
    text.push_str("end\n");
    text
}
