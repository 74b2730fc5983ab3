//! One replica: admission, flush, application, and what ends a command.
use crate::base::*;
use crate::payload::{Command, Payload};
use crate::raft::{Draft, Message, Raft};
use std::collections::{BTreeMap, HashMap};
use std::rc::Rc;

#[derive(Clone)]
pub struct Snapshot {
    pub desc: Desc,
    pub lease: Lease,
    pub lai: u64,
    pub table: Table,
}

pub type Mail = Message<Snapshot>;

#[derive(Clone, PartialEq, Eq)]
pub enum Item {
    Write(CmdId),
    Lease(LeaseAsk),
}

#[derive(Clone, Copy, PartialEq, Eq)]
pub enum Why {
    Nothing,
    OldLease,
    OldIndex,
    LeaseMoved,
}

pub enum Record {
    Write(Rc<Payload>),
    Split { command: Rc<Payload>, right: u8 },
    Lease(Lease),
    Passed(Why),
}

/// The records behind an index, up to the next snapshot.
pub struct Piece {
    pub first: u64,
    pub list: Vec<Record>,
}

#[derive(Clone, Copy, PartialEq, Eq)]
enum Stage {
    Waiting,
    Proposed { max: u64, since: u64 },
}

struct Proposal {
    id: CmdId,
    request: Request,
    ops: Vec<Op>,
    reply: Reply,
    seq: u64,
    stage: Stage,
}

/// Latches: no two of different commands meet, so they stand in order of their starts.
#[derive(Default)]
struct Latches {
    held: BTreeMap<u128, (u128, u64, CmdId)>,
}

impl Latches {
    fn met(&self, (start, end): Span) -> Option<(u64, CmdId)> {
        let before = self.held.range(..=start).next_back().filter(|(_, h)| start < h.0);
        let from = before.map_or(start, |(s, _)| *s);
        self.held.range(from..end).map(|(_, h)| (h.1, h.2)).min_by_key(|m| m.0)
    }

    fn hold(&mut self, id: CmdId, number: u64, (start, end): Span) {
        self.held.insert(start, (end, number, id));
    }

    fn free(&mut self, (start, _): Span) {
        self.held.remove(&start);
    }
}

pub enum Ask {
    Asked(LeaseAsk),
    Held(Lease),
    NotHolder(Lease),
}

/// What an event of a replica leaves beside it.
#[derive(Default)]
pub struct Effects {
    pub messages: Vec<(u8, Mail)>,
    pub ends: Vec<(CmdId, Outcome)>,
}

pub struct Replica {
    pub raft: Raft,
    pub desc: Desc,
    pub lease: Lease,
    pub lai: u64,
    pub table: Table,
    pub applied: u64,
    pub pieces: Vec<Piece>,
    latches: Latches,
    pending: BTreeMap<u64, Proposal>,
    places: HashMap<CmdId, u64>,
    admitted: u64,
    assigned: u64,
    inbox: Vec<Item>,
    asks: Vec<LeaseAsk>,
    barrier: u64,
}

impl Replica {
    pub fn new(raft: Raft, state: Snapshot, applied: u64) -> Replica {
        Replica {
            raft,
            desc: state.desc,
            lease: state.lease,
            lai: state.lai,
            table: state.table,
            applied,
            pieces: vec![Piece { first: applied, list: vec![] }],
            latches: Latches::default(),
            pending: BTreeMap::new(),
            places: HashMap::new(),
            admitted: 0,
            assigned: 0,
            inbox: vec![],
            asks: vec![],
            barrier: 0,
        }
    }

    fn node(&self) -> u8 {
        self.raft.node
    }

    fn finish(&mut self, d: Draft<Snapshot>) -> Vec<(u8, Mail)> {
        let state = (self.desc, self.lease, self.lai, &self.table);
        let mut made: Option<Rc<Snapshot>> = None;
        let mut make = || {
            made.get_or_insert_with(|| {
                Rc::new(Snapshot { desc: state.0, lease: state.1, lai: state.2, table: state.3.clone() })
            })
            .clone()
        };
        self.raft.finish(d, self.applied, &mut make)
    }

    pub fn is_waiting(&self, id: &CmdId) -> bool {
        self.places.get(id).is_some_and(|at| self.pending[at].stage == Stage::Waiting)
    }

    pub fn has_entry(&self) -> bool {
        self.raft.commit > self.applied
    }

    pub fn admit(&mut self, id: CmdId, request: &Request) -> Result<(), Refusal> {
        if self.lease.holder != self.node() || self.lease.seq <= self.barrier {
            return Err(Refusal::NotLeaseHolder(self.lease));
        }
        if !request.in_bounds(&self.desc) {
            return Err(Refusal::RangeMismatch(self.desc));
        }
        let (first, second) = request.spans();
        let met = self.latches.met(first).into_iter().chain(second.and_then(|s| self.latches.met(s)));
        if let Some((_, by)) = met.min_by_key(|m| m.0) {
            return Err(Refusal::Latched(by));
        }
        let (ops, reply) = evaluate(&self.table, &self.desc, request)?;
        let at = self.admitted;
        self.admitted += 1;
        self.latches.hold(id, at, first);
        if let Some(s) = second {
            self.latches.hold(id, at, s);
        }
        let seq = self.lease.seq;
        self.pending.insert(at, Proposal { id, request: request.clone(), ops, reply, seq, stage: Stage::Waiting });
        self.places.insert(id, at);
        Ok(())
    }

    fn end(&mut self, at: u64) -> Option<Proposal> {
        let p = self.pending.remove(&at)?;
        self.places.remove(&p.id);
        let (first, second) = p.request.spans();
        self.latches.free(first);
        if let Some(s) = second {
            self.latches.free(s);
        }
        Some(p)
    }

    pub fn ask(&mut self, ticks: u64) -> Ask {
        let own = self.lease.holder == self.node();
        if ticks < self.lease.expires && !own {
            return Ask::Held(self.lease);
        }
        let expires = if own && self.lease.seq <= self.barrier { 0 } else { ticks + 40 };
        self.asked(LeaseAsk { holder: self.node(), prev: self.lease.seq, expires })
    }

    pub fn transfer(&mut self, to: u8, ticks: u64) -> Ask {
        if self.lease.holder != self.node() {
            return Ask::NotHolder(self.lease);
        }
        self.asked(LeaseAsk { holder: to, prev: self.lease.seq, expires: ticks + 40 })
    }

    fn asked(&mut self, ask: LeaseAsk) -> Ask {
        self.asks.push(ask);
        Ask::Asked(ask)
    }

    pub fn collect(&mut self, taken: Vec<Item>) {
        for item in taken {
            if let Item::Lease(ask) = &item {
                match self.asks.iter().position(|a| a == ask) {
                    Some(at) => drop(self.asks.remove(at)),
                    None => continue,
                }
            }
            self.inbox.push(item);
        }
    }

    fn payload(p: &Proposal, max: u64) -> Rc<Payload> {
        Rc::new(Payload::Write(Command {
            id: p.id,
            request: p.request.clone(),
            ops: p.ops.clone(),
            reply: p.reply.clone(),
            seq: p.seq,
            max,
        }))
    }

    pub fn flush(&mut self, ticks: u64) -> Effects {
        let inbox = std::mem::take(&mut self.inbox);
        let mut ends = vec![];
        let mut payloads: Vec<Rc<Payload>> = inbox
            .iter()
            .filter_map(|i| if let Item::Lease(ask) = i { Some(Rc::new(Payload::Lease(*ask))) } else { None })
            .collect();
        for item in &inbox {
            let Item::Write(id) = item else { continue };
            let Some(at) = self.places.get(id).copied().filter(|_| self.is_waiting(id)) else { continue };
            if self.pending[&at].seq != self.lease.seq {
                self.end(at);
                ends.push((*id, Outcome::Refused(Refusal::NotLeaseHolder(self.lease))));
                continue;
            }
            let max = self.assigned.max(self.lai) + 1;
            self.assigned = max;
            if let Some(p) = self.pending.get_mut(&at) {
                p.stage = Stage::Proposed { max, since: ticks };
                payloads.push(Self::payload(p, max));
            }
        }
        let mut d = Draft::new();
        self.raft.propose(&mut d, payloads);
        Effects { messages: self.finish(d), ends }
    }

    /// What is proposed again, and what goes back to wait; `all` is asked where the leader is a new one.
    fn refresh(&mut self, d: &mut Draft<Snapshot>, all: bool, ticks: u64) {
        let (mut back, mut again) = (vec![], vec![]);
        for (at, p) in &self.pending {
            if let Stage::Proposed { max, since } = p.stage {
                if max <= self.lai {
                    back.push((max, *at));
                } else if all || ticks - since >= 5 {
                    again.push((max, *at));
                }
            }
        }
        back.sort_by_key(|b| b.0);
        again.sort_by_key(|a| a.0);
        for (_, at) in back {
            self.back(at);
        }
        let mut payloads = vec![];
        for (max, at) in again {
            if let Some(p) = self.pending.get_mut(&at) {
                p.stage = Stage::Proposed { max, since: ticks };
                payloads.push(Self::payload(p, max));
            }
        }
        self.raft.propose(d, payloads);
    }

    fn back(&mut self, at: u64) {
        if let Some(p) = self.pending.get_mut(&at) {
            p.stage = Stage::Waiting;
            self.inbox.push(Item::Write(p.id));
        }
    }

    pub fn tick(&mut self, ticks: u64) -> Effects {
        let before = (self.raft.term, self.raft.leader);
        let mut d = Draft::new();
        self.raft.tick(&mut d);
        let all = self.raft.leader.is_some() && before != (self.raft.term, self.raft.leader);
        self.refresh(&mut d, all, ticks);
        Effects { messages: self.finish(d), ends: vec![] }
    }

    pub fn deliver(&mut self, from: u8, message: &Mail, ticks: u64) -> Effects {
        let before = (self.raft.term, self.raft.leader);
        let mut d = Draft::new();
        self.raft.receive(&mut d, from, message);
        let ends = match d.taken.take() {
            Some((index, snapshot)) => self.take_in(index, &snapshot),
            None => vec![],
        };
        if self.raft.leader.is_some() && before != (self.raft.term, self.raft.leader) {
            self.refresh(&mut d, true, ticks);
        }
        Effects { messages: self.finish(d), ends }
    }

    fn take_in(&mut self, index: u64, s: &Snapshot) -> Vec<(CmdId, Outcome)> {
        (self.desc, self.lease, self.lai) = (s.desc, s.lease, s.lai);
        self.table = s.table.clone();
        self.applied = index;
        self.pieces.push(Piece { first: index, list: vec![] });
        let passed = self.lai;
        self.end_where(|p| match p.stage {
            Stage::Proposed { max, .. } if max <= passed => Some(Outcome::Overtaken { own: max, passed }),
            _ => None,
        })
    }

    fn end_where(&mut self, ends: impl Fn(&Proposal) -> Option<Outcome>) -> Vec<(CmdId, Outcome)> {
        let found: Vec<(u64, Outcome)> = self.pending.iter().filter_map(|(at, p)| Some((*at, ends(p)?))).collect();
        found.into_iter().filter_map(|(at, outcome)| Some((self.end(at)?.id, outcome))).collect()
    }

    pub fn removal(&mut self) -> Vec<(CmdId, Outcome)> {
        self.end_where(|p| {
            Some(match p.stage {
                Stage::Proposed { max, .. } => Outcome::Removed { own: max },
                Stage::Waiting => Outcome::Refused(Refusal::NoReplica),
            })
        })
    }

    pub fn restart(&mut self) -> Vec<(CmdId, Outcome)> {
        let lease = self.lease;
        let ends = self.end_where(|p| {
            Some(match p.stage {
                Stage::Proposed { max, .. } => Outcome::Restarted { own: max },
                Stage::Waiting => Outcome::Refused(Refusal::NotLeaseHolder(lease)),
            })
        });
        self.inbox.clear();
        self.asks.clear();
        self.assigned = 0;
        self.barrier = self.lease.seq;
        self.raft.restart(self.applied);
        ends
    }

    /// Applies the next committed entry; a split that is taken gives the start of its right range.
    pub fn apply(&mut self) -> (Vec<(CmdId, Outcome)>, Option<Snapshot>) {
        let payload = self.raft.entry(self.applied + 1).payload.clone();
        self.applied += 1;
        let (mut ends, mut right) = (vec![], None);
        let record = match &*payload {
            Payload::Nothing => Record::Passed(Why::Nothing),
            Payload::Lease(ask) => match self.lease.after(ask) {
                None => Record::Passed(Why::LeaseMoved),
                Some(lease) => {
                    self.lease = lease;
                    Record::Lease(lease)
                }
            },
            Payload::Write(c) => {
                let why = self.verdict(c);
                ends.extend(self.tell(c, why));
                match why {
                    Some(why) => Record::Passed(why),
                    None => self.take(c, &payload, &mut right),
                }
            }
        };
        if let Some(piece) = self.pieces.last_mut() {
            piece.list.push(record);
        }
        (ends, right)
    }

    fn verdict(&self, c: &Command) -> Option<Why> {
        if c.seq != self.lease.seq {
            Some(Why::OldLease)
        } else if c.max <= self.lai {
            Some(Why::OldIndex)
        } else {
            None
        }
    }

    fn tell(&mut self, c: &Command, why: Option<Why>) -> Option<(CmdId, Outcome)> {
        let at = *self.places.get(&c.id)?;
        if !matches!(self.pending[&at].stage, Stage::Proposed { max, .. } if max == c.max) {
            return None;
        }
        let outcome = match why {
            None => Outcome::Ok(c.reply.clone()),
            Some(Why::OldLease) => Outcome::Refused(Refusal::NotLeaseHolder(self.lease)),
            Some(_) => {
                self.back(at);
                return None;
            }
        };
        self.end(at);
        Some((c.id, outcome))
    }

    fn take(&mut self, c: &Command, payload: &Rc<Payload>, right: &mut Option<Snapshot>) -> Record {
        self.lai = c.max;
        let Request::Split(key) = c.request else {
            write(&mut self.table, &c.ops);
            return Record::Write(payload.clone());
        };
        let id = self.desc.right_id();
        let level = self.desc.level + 1;
        let desc = Desc { id, level, start: key, end: self.desc.end };
        *right = Some(Snapshot { desc, lease: self.lease, lai: 0, table: self.table.split_off(&key) });
        self.desc = Desc { level, end: key, ..self.desc };
        Record::Split { command: payload.clone(), right: id }
    }

    pub fn cut(&mut self) {
        self.raft.cut(self.applied);
    }
}
