//! The numbers that are drawn: whether a message is lost, and large scripts.
use std::fmt::Write;

/// A permuted congruential generator with 64 bits of state and 32 of output (XSH RR).
pub struct Pcg {
    state: u64,
    increment: u64,
}

const MULTIPLIER: u64 = 6364136223846793005;

impl Pcg {
    pub fn new(state: u64, stream: u64) -> Pcg {
        let increment = stream << 1 | 1;
        let state = state.wrapping_add(increment).wrapping_mul(MULTIPLIER).wrapping_add(increment);
        Pcg { state, increment }
    }

    pub fn next_word(&mut self) -> u32 {
        let state = self.state;
        self.state = state.wrapping_mul(MULTIPLIER).wrapping_add(self.increment);
        ((((state >> 18) ^ state) >> 27) as u32).rotate_right((state >> 59) as u32)
    }

    fn pick(&mut self, n: u32) -> u32 {
        self.next_word() % n
    }
}

pub fn lost(percent: u8, salt: u64, sender: u8, number: u64) -> bool {
    percent > 0 && Pcg::new(salt.wrapping_add(number), sender as u64).pick(100) < percent as u32
}

/// Ranges 0 to 3 as the script makes them: whether they are made, and who holds their lease.
struct Ranges {
    made: [bool; 4],
    holder: [u8; 4],
}

const STARTS: [u32; 4] = [0, 500, 250, 750];
const SPLITS: [(usize, usize); 3] = [(0, 1), (0, 2), (1, 3)];

impl Ranges {
    fn of(&self, x: u32) -> usize {
        (0..4).filter(|r| self.made[*r] && STARTS[*r] <= x).max_by_key(|r| STARTS[*r]).unwrap_or(0)
    }
}

fn request(draw: &mut Pcg, x: u32, least: u32) -> String {
    let t = draw.pick(10);
    match t {
        0..=4 => format!("add k{x:03} {}", 1 + draw.pick(100)),
        5 | 6 => format!("put k{x:03} {}", draw.pick(1000)),
        7 => format!("cput k{x:03} none {}", draw.pick(1000)),
        8 => format!("del k{x:03}"),
        _ => format!("move k{x:03} k{least:03} {}", draw.pick(10)),
    }
}

pub fn script(number: u64, size: u64) -> String {
    let mut draw = Pcg::new(number, 1);
    let mut text = format!("cluster 5\nloss 10 {number}\n");
    let mut ranges = Ranges { made: [true, false, false, false], holder: [1; 4] };
    for i in 1..=size {
        if size >= 4 && (1..=3).any(|q| i == q * (size / 4) + 1) {
            let (left, right) = SPLITS[((i - 1) / (size / 4)) as usize - 1];
            let holder = ranges.holder[left];
            let _ = write!(text, "settle 30\nsend {holder} {left} 1 split k{}\nsettle 30\n", STARTS[right]);
            ranges.made[right] = true;
            ranges.holder[right] = holder;
        }
        if size >= 13 && (1..=12).any(|j| i == j * (size / 13) + 1) {
            let made: Vec<usize> = (0..4).filter(|r| ranges.made[*r]).collect();
            let range = made[draw.pick(made.len() as u32) as usize];
            let to = 1 + draw.pick(5) as u8;
            let _ = write!(text, "transfer {} {range} {to}\nsettle 30\n", ranges.holder[range]);
            ranges.holder[range] = to;
        }
        let x = draw.pick(1000);
        let range = ranges.of(x);
        let client = 1 + (i - 1) % 16;
        let request = request(&mut draw, x, STARTS[range]);
        let _ = write!(text, "send {} {range} {client} {request}\n", ranges.holder[range]);
        if i % 16 == 0 {
            text.push_str("settle 4\n");
        }
    }
    text.push_str("settle 100\nend\n");
    text
}

