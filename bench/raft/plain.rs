//! The same replicas, events and messages as pace.rt.txt, as a plain program with no proof: Raft
//! (2014) with an Append of at most eight entries, one Append a peer and event, and no snapshots.

use std::collections::VecDeque;
use std::time::Instant;

const NODES: usize = 3;
const MOST_ENTRIES: usize = 8;

#[derive(Clone)]
#[allow(dead_code)]
struct Entry {
    term: u64,
    payload: Vec<u8>,
}

enum Message {
    Append {
        term: u64,
        prev_index: u64,
        prev_term: u64,
        entries: Vec<Entry>,
        commit: u64,
    },
    AppendReply {
        term: u64,
        ok: bool,
        index: u64,
    },
}

#[derive(PartialEq)]
enum Role {
    Follower,
    Leader,
}

struct Raft {
    node: usize,
    term: u64,
    role: Role,
    log: Vec<Entry>,
    commit: u64,
    next: [u64; NODES],
    matched: [u64; NODES],
    silent: u64,
}

type Sent = Vec<(usize, Message)>;

impl Raft {
    fn start(node: usize, leader: usize) -> Raft {
        Raft {
            node,
            term: 1,
            role: if node == leader {
                Role::Leader
            } else {
                Role::Follower
            },
            log: Vec::new(),
            commit: 0,
            next: [1; NODES],
            matched: [0; NODES],
            silent: 0,
        }
    }

    fn last(&self) -> u64 {
        self.log.len() as u64
    }

    fn term_at(&self, index: u64) -> Option<u64> {
        match index {
            0 => Some(0),
            _ => self.log.get(index as usize - 1).map(|entry| entry.term),
        }
    }

    fn append_for(&self, peer: usize) -> Message {
        let next = self.next[peer];
        let from = (next - 1) as usize;
        let to = self.log.len().min(from + MOST_ENTRIES);
        Message::Append {
            term: self.term,
            prev_index: next - 1,
            prev_term: self.term_at(next - 1).unwrap_or(0),
            entries: self.log[from..to].to_vec(),
            commit: self.commit,
        }
    }

    fn send_all(&self) -> Sent {
        (0..NODES)
            .filter(|peer| *peer != self.node)
            .map(|peer| (peer, self.append_for(peer)))
            .collect()
    }

    /// The commit index moves on to what a majority has, if that is of the present term.
    fn advance(&mut self) {
        let mut matched = self.matched;
        matched[self.node] = self.last();
        matched.sort_unstable();
        let index = matched[NODES / 2];
        if index > self.commit && self.term_at(index) == Some(self.term) {
            self.commit = index;
        }
    }

    fn propose(&mut self, payload: Vec<u8>) -> Sent {
        if self.role != Role::Leader {
            return Vec::new();
        }
        let term = self.term;
        self.log.push(Entry { term, payload });
        self.advance();
        self.send_all()
    }

    fn receive(&mut self, from: usize, message: Message) -> Sent {
        match message {
            Message::Append {
                term,
                prev_index,
                prev_term,
                entries,
                commit,
            } => vec![(
                from,
                self.on_append(term, prev_index, prev_term, entries, commit),
            )],
            Message::AppendReply { term, ok, index } => self.on_reply(from, term, ok, index),
        }
    }

    fn on_append(
        &mut self,
        term: u64,
        prev_index: u64,
        prev_term: u64,
        entries: Vec<Entry>,
        commit: u64,
    ) -> Message {
        let refused = Message::AppendReply {
            term: self.term,
            ok: false,
            index: self.commit,
        };
        if term < self.term {
            return refused;
        }
        self.term = term;
        self.role = Role::Follower;
        self.silent = 0;
        if self.term_at(prev_index) != Some(prev_term) {
            return refused;
        }
        let index = prev_index + entries.len() as u64;
        self.accept(prev_index as usize, entries);
        self.commit = self.commit.max(commit.min(index));
        Message::AppendReply {
            term: self.term,
            ok: true,
            index,
        }
    }

    /// The first entry that differs in term cuts the log there.
    fn accept(&mut self, place: usize, entries: Vec<Entry>) {
        let same = entries
            .iter()
            .zip(&self.log[place..])
            .take_while(|(new, old)| new.term == old.term)
            .count();
        if same < entries.len() {
            self.log.truncate(place + same);
            self.log.extend(entries.into_iter().skip(same));
        }
    }

    fn on_reply(&mut self, from: usize, term: u64, ok: bool, index: u64) -> Sent {
        if self.role != Role::Leader || term != self.term {
            return Vec::new();
        }
        let last = self.last();
        if ok {
            self.matched[from] = self.matched[from].max(index);
            self.next[from] = self.next[from].max(self.matched[from] + 1).min(last + 1);
        } else {
            self.next[from] = index.max(self.matched[from]).min(last) + 1;
        }
        self.advance();
        if ok && self.next[from] > last {
            return Vec::new();
        }
        vec![(from, self.append_for(from))]
    }
}

struct Net {
    rafts: Vec<Raft>,
    packets: VecDeque<(usize, usize, Message)>,
    delivered: u64,
}

impl Net {
    fn post(&mut self, from: usize, sent: Sent) {
        self.packets
            .extend(sent.into_iter().map(|(to, message)| (from, to, message)));
    }

    fn settle(&mut self) {
        while let Some((from, to, message)) = self.packets.pop_front() {
            self.delivered += 1;
            let sent = self.rafts[to].receive(from, message);
            self.post(to, sent);
        }
    }
}

fn main() {
    let numbers: Vec<u64> = std::env::args()
        .skip(1)
        .map(|word| word.parse().unwrap())
        .collect();
    let (count, burst) = (numbers[0], numbers[1]);
    let start = Instant::now();
    let mut net = Net {
        rafts: (0..NODES).map(|node| Raft::start(node, 0)).collect(),
        packets: VecDeque::new(),
        delivered: 0,
    };
    for number in 1..=count {
        let sent = net.rafts[0].propose(number.to_le_bytes().to_vec());
        net.post(0, sent);
        if number % burst == 0 {
            net.settle();
        }
    }
    net.settle();
    let time = start.elapsed().as_millis();
    let commits: Vec<String> = net
        .rafts
        .iter()
        .map(|raft| raft.commit.to_string())
        .collect();
    println!(
        "commit {} messages {} ms {time}",
        commits.join(" "),
        net.delivered
    );
}
