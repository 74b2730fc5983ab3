//! The Raft step (Raft as published in 2014, with snapshots and cut logs).
use crate::payload::Payload;
use std::collections::VecDeque;
use std::rc::Rc;

#[derive(Clone)]
pub struct Entry {
    pub term: u64,
    pub payload: Rc<Payload>,
}

pub enum Message<S> {
    Vote { term: u64, last_index: u64, last_term: u64 },
    VoteReply { term: u64, granted: bool },
    Append { term: u64, prev_index: u64, prev_term: u64, entries: Vec<Entry>, commit: u64 },
    AppendReply { term: u64, ok: bool, index: u64 },
    Forward { payload: Rc<Payload> },
    Snap { term: u64, index: u64, index_term: u64, snapshot: Rc<S> },
}

impl<S> Message<S> {
    fn term(&self) -> Option<u64> {
        match self {
            Message::Forward { .. } => None,
            Message::Vote { term, .. }
            | Message::VoteReply { term, .. }
            | Message::Append { term, .. }
            | Message::AppendReply { term, .. }
            | Message::Snap { term, .. } => Some(*term),
        }
    }
}

#[derive(Clone, Copy, PartialEq, Eq)]
pub enum Role {
    Follower,
    Candidate,
    Leader,
}

/// What one event sends: votes or the reply, forwards, and then what is due to the peers.
pub struct Draft<S> {
    first: Vec<(u8, Message<S>)>,
    forwards: Vec<(u8, Message<S>)>,
    due: [bool; 6],
    pub taken: Option<(u64, Rc<S>)>,
}

impl<S> Draft<S> {
    pub fn new() -> Self {
        Draft { first: vec![], forwards: vec![], due: [false; 6], taken: None }
    }
}

pub struct Raft {
    pub node: u8,
    nodes: u8,
    pub term: u64,
    vote: Option<u8>,
    role: Role,
    pub leader: Option<u8>,
    base: (u64, u64),
    entries: VecDeque<Entry>,
    pub commit: u64,
    votes: [bool; 6],
    next: [u64; 6],
    matched: [u64; 6],
    silent: u64,
    beat: u64,
}

impl Raft {
    pub fn start(node: u8, nodes: u8, leader: u8, base: (u64, u64)) -> Raft {
        Raft {
            node,
            nodes,
            term: 1,
            vote: Some(leader),
            role: if node == leader { Role::Leader } else { Role::Follower },
            leader: Some(leader),
            base,
            entries: VecDeque::new(),
            commit: base.0,
            votes: [false; 6],
            next: [base.0 + 1; 6],
            matched: [0; 6],
            silent: 0,
            beat: 0,
        }
    }

    pub fn from_snap(node: u8, nodes: u8, term: u64, from: u8, base: (u64, u64)) -> Raft {
        Raft { term, vote: None, role: Role::Follower, ..Raft::start(node, nodes, from, base) }
    }

    pub fn restart(&mut self, applied: u64) {
        self.role = Role::Follower;
        self.leader = None;
        self.votes = [false; 6];
        self.next = [self.base.0 + 1; 6];
        self.matched = [0; 6];
        self.silent = 0;
        self.beat = 0;
        self.commit = applied;
    }

    fn peers(&self) -> impl Iterator<Item = u8> + use<> {
        let node = self.node;
        (1..=self.nodes).filter(move |p| *p != node)
    }

    fn last(&self) -> (u64, u64) {
        (self.base.0 + self.entries.len() as u64, self.entries.back().map_or(self.base.1, |e| e.term))
    }

    pub fn entry(&self, index: u64) -> &Entry {
        &self.entries[(index - self.base.0 - 1) as usize]
    }

    fn term_at(&self, index: u64) -> Option<u64> {
        if index == self.base.0 {
            return Some(self.base.1);
        }
        let place = index.checked_sub(self.base.0 + 1)?;
        self.entries.get(place as usize).map(|e| e.term)
    }

    fn is_majority(&self, count: u8) -> bool {
        2 * count > self.nodes
    }

    fn append<S>(&mut self, d: &mut Draft<S>, payload: Rc<Payload>) {
        self.entries.push_back(Entry { term: self.term, payload });
        for p in self.peers() {
            d.due[p as usize] = true;
        }
    }

    fn lead<S>(&mut self, d: &mut Draft<S>) {
        self.role = Role::Leader;
        self.leader = Some(self.node);
        self.next = [self.last().0 + 1; 6];
        self.matched = [0; 6];
        self.silent = 0;
        self.beat = 0;
        self.append(d, Rc::new(Payload::Nothing));
    }

    fn lead_at_majority<S>(&mut self, d: &mut Draft<S>) {
        let votes = self.votes.iter().filter(|v| **v).count() as u8;
        if self.is_majority(votes) {
            self.lead(d);
        }
    }

    pub fn tick<S>(&mut self, d: &mut Draft<S>) {
        if self.role == Role::Leader {
            self.beat += 1;
            if self.beat == 2 {
                self.beat = 0;
                for p in self.peers() {
                    d.due[p as usize] = true;
                }
            }
            return;
        }
        self.silent += 1;
        if self.silent == 10 + 3 * self.node as u64 {
            self.stand(d);
        }
    }

    fn stand<S>(&mut self, d: &mut Draft<S>) {
        self.silent = 0;
        self.term += 1;
        self.vote = Some(self.node);
        self.role = Role::Candidate;
        self.leader = None;
        self.votes = [false; 6];
        self.votes[self.node as usize] = true;
        let (last_index, last_term) = self.last();
        for p in self.peers() {
            d.first.push((p, Message::Vote { term: self.term, last_index, last_term }));
        }
        self.lead_at_majority(d);
    }

    fn follow(&mut self, from: u8) {
        self.role = Role::Follower;
        self.leader = Some(from);
        self.silent = 0;
    }

    pub fn receive<S>(&mut self, d: &mut Draft<S>, from: u8, message: &Message<S>) {
        if message.term().is_some_and(|t| t > self.term) {
            self.term = message.term().unwrap_or(0);
            self.vote = None;
            self.role = Role::Follower;
            self.leader = None;
        }
        match message {
            Message::Vote { term, last_index, last_term } => self.asked(d, from, *term, (*last_term, *last_index)),
            Message::VoteReply { term, granted } => {
                if *granted && *term == self.term && self.role == Role::Candidate {
                    self.votes[from as usize] = true;
                    self.lead_at_majority(d);
                }
            }
            Message::Append { term, prev_index, prev_term, entries, commit } => {
                let reply = self.appended(from, *term, (*prev_index, *prev_term), entries, *commit);
                d.first.push((from, reply));
            }
            Message::AppendReply { term, ok, index } => self.told(d, from, *term, *ok, *index),
            Message::Forward { payload } => {
                if self.role == Role::Leader {
                    self.append(d, payload.clone());
                }
            }
            Message::Snap { term, index, index_term, snapshot } => {
                let reply = self.overtaken(d, from, *term, (*index, *index_term), snapshot);
                d.first.push((from, reply));
            }
        }
    }

    fn asked<S>(&mut self, d: &mut Draft<S>, from: u8, term: u64, last: (u64, u64)) {
        let (index, own) = self.last();
        let granted = term == self.term && self.vote.map_or(true, |v| v == from) && last >= (own, index);
        if granted {
            self.vote = Some(from);
            self.silent = 0;
        }
        d.first.push((from, Message::VoteReply { term: self.term, granted }));
    }

    fn appended<S>(&mut self, from: u8, term: u64, prev: (u64, u64), entries: &[Entry], commit: u64) -> Message<S> {
        if term < self.term {
            return Message::AppendReply { term: self.term, ok: false, index: self.commit };
        }
        self.follow(from);
        if prev.0 > self.last().0 || (prev.0 >= self.base.0 && self.term_at(prev.0) != Some(prev.1)) {
            return Message::AppendReply { term, ok: false, index: self.commit };
        }
        for (at, entry) in (prev.0 + 1..).zip(entries) {
            if at <= self.base.0 || self.term_at(at) == Some(entry.term) {
                continue;
            }
            self.entries.truncate((at - self.base.0 - 1) as usize);
            self.entries.push_back(entry.clone());
        }
        let end = prev.0 + entries.len() as u64;
        self.commit = self.commit.max(commit.min(end));
        Message::AppendReply { term, ok: true, index: end.max(self.base.0) }
    }

    fn told<S>(&mut self, d: &mut Draft<S>, from: u8, term: u64, ok: bool, index: u64) {
        if self.role != Role::Leader || term != self.term {
            return;
        }
        let (p, last) = (from as usize, self.last().0);
        if ok {
            self.matched[p] = self.matched[p].max(index);
            self.next[p] = self.next[p].max(self.matched[p] + 1).min(last + 1);
            d.due[p] |= self.next[p] <= last;
        } else {
            self.next[p] = (index.max(self.matched[p]) + 1).min(last + 1);
            d.due[p] = true;
        }
    }

    fn overtaken<S>(&mut self, d: &mut Draft<S>, from: u8, term: u64, at: (u64, u64), snapshot: &Rc<S>) -> Message<S> {
        if term < self.term {
            return Message::AppendReply { term: self.term, ok: false, index: self.commit };
        }
        self.follow(from);
        if at.0 <= self.commit {
            return Message::AppendReply { term, ok: true, index: self.commit };
        }
        if self.term_at(at.0) != Some(at.1) {
            self.base = at;
            self.entries.clear();
            d.taken = Some((at.0, snapshot.clone()));
        }
        self.commit = at.0;
        Message::AppendReply { term, ok: true, index: at.0 }
    }

    pub fn propose<S>(&mut self, d: &mut Draft<S>, payloads: Vec<Rc<Payload>>) {
        for payload in payloads {
            if self.role == Role::Leader {
                self.append(d, payload);
            } else if let Some(leader) = self.leader {
                d.forwards.push((leader, Message::Forward { payload }));
            }
        }
    }

    pub fn cut(&mut self, to: u64) {
        let term = self.term_at(to).unwrap_or(self.base.1);
        self.entries.drain(..(to - self.base.0) as usize);
        self.base = (to, term);
    }

    fn commit_rule(&mut self) {
        let mut has: Vec<u64> = self.peers().map(|p| self.matched[p as usize]).collect();
        has.push(self.last().0);
        has.sort_unstable();
        let index = has[(has.len() - 1) / 2].min(self.last().0);
        if index > self.commit && self.term_at(index) == Some(self.term) {
            self.commit = index;
        }
    }

    fn due<S>(&self, p: u8, applied: u64, snapshot: &mut dyn FnMut() -> Rc<S>) -> Message<S> {
        let prev_index = self.next[p as usize] - 1;
        match self.term_at(prev_index) {
            Some(prev_term) if prev_index >= self.base.0 => {
                let from = (prev_index - self.base.0) as usize;
                let entries = self.entries.range(from..).take(8).cloned().collect();
                Message::Append { term: self.term, prev_index, prev_term, entries, commit: self.commit }
            }
            _ => {
                let index_term = self.term_at(applied).unwrap_or(0);
                Message::Snap { term: self.term, index: applied, index_term, snapshot: snapshot() }
            }
        }
    }

    /// Ends the event: the commit rule, and all messages in their order.
    pub fn finish<S>(&mut self, d: Draft<S>, applied: u64, snapshot: &mut dyn FnMut() -> Rc<S>) -> Vec<(u8, Message<S>)> {
        let mut messages = d.first;
        messages.extend(d.forwards);
        if self.role == Role::Leader {
            self.commit_rule();
            let due: Vec<u8> = self.peers().filter(|p| d.due[*p as usize]).collect();
            messages.extend(due.into_iter().map(|p| (p, self.due(p, applied, snapshot))));
        }
        messages
    }
}
