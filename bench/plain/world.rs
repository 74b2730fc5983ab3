//! One to five nodes with their buffers, and the lines of a script that move them.
use crate::base::*;
use crate::draws::lost;
use crate::raft::{Message, Raft};
use crate::replica::*;
use crate::script::Line;
use std::collections::{BTreeMap, BTreeSet};

const MOST_EVENTS: u64 = 4_194_304;
const MOST_WEIGHT: u64 = 2_097_152;

pub enum Limit {
    Events,
    Weight(u64),
}

pub type Played<T> = Result<T, Limit>;

pub enum Status {
    Absent,
    Live(Box<Replica>),
    Removed(Box<Replica>),
}

/// A buffer of sixteen places: a place is drawn, then published, then taken by a collect.
#[derive(Default)]
struct Buffer {
    places: Vec<Place>,
}

enum Place {
    Drawn,
    Published(Item),
    Taken,
}

impl Buffer {
    fn draw(&mut self, closed: bool) -> Option<usize> {
        if closed || self.places.len() == 16 {
            return None;
        }
        self.places.push(Place::Drawn);
        Some(self.places.len() - 1)
    }

    fn publish(&mut self, at: usize, item: Item) {
        self.places[at] = Place::Published(item);
    }

    fn collect(&mut self) -> (Vec<Item>, bool) {
        let mut items = vec![];
        for place in &mut self.places {
            if matches!(place, Place::Published(_)) {
                if let Place::Published(item) = std::mem::replace(place, Place::Taken) {
                    items.push(item);
                }
            }
        }
        let whole = self.places.iter().all(|p| matches!(p, Place::Taken));
        if whole {
            self.places.clear();
        }
        (items, !whole)
    }
}

pub struct Node {
    pub seats: [Status; 8],
    buffers: [(Buffer, bool); 8],
    ticks: u64,
    pub sent: Vec<(u8, u8, Mail)>,
}

/// The latest attempt of a command.
struct Latest {
    request: Request,
    attempt: u16,
    node: u8,
    range: u8,
    had_place: bool,
}

/// The messages of a sender that were handled: all below the first gap, and these.
#[derive(Default)]
struct Handled {
    below: usize,
    beyond: BTreeSet<usize>,
}

impl Handled {
    fn mark(&mut self, at: usize) {
        self.beyond.insert(at);
        while self.beyond.remove(&self.below) {
            self.below += 1;
        }
    }
}

pub struct World {
    pub nodes: Vec<Node>,
    pub notes: Vec<(u32, String)>,
    pub replies: BTreeMap<CmdId, Outcome>,
    sent_by_client: BTreeMap<u16, u32>,
    latest: BTreeMap<(u16, u32), Latest>,
    unplaced: BTreeSet<(u16, u32)>,
    drawn: BTreeMap<CmdId, (u8, u8, usize)>,
    handled: Vec<Handled>,
    loss: (u8, u64),
    pub events: u64,
    weight: u64,
}

fn weight_of(mail: &Mail) -> u64 {
    match mail {
        Message::Append { entries, .. } => {
            1 + entries.iter().map(|e| 1 + e.payload.len() as u64 / 128).sum::<u64>()
        }
        Message::Snap { snapshot, .. } => 1 + snapshot.table.len() as u64,
        _ => 1,
    }
}

impl World {
    pub fn start(nodes: u8) -> World {
        let node = |n: u8| {
            let state = Snapshot {
                desc: Desc { id: 0, level: 0, start: 0, end: END },
                lease: Lease { holder: 1, seq: 1, expires: 40 },
                lai: 0,
                table: Table::new(),
            };
            let mut seats = [const { Status::Absent }; 8];
            seats[0] = Status::Live(Box::new(Replica::new(Raft::start(n, nodes, 1, (0, 0)), state, 0)));
            Node { seats, buffers: Default::default(), ticks: 0, sent: vec![] }
        };
        World {
            nodes: (1..=nodes).map(node).collect(),
            notes: vec![],
            replies: BTreeMap::new(),
            sent_by_client: BTreeMap::new(),
            latest: BTreeMap::new(),
            unplaced: BTreeSet::new(),
            drawn: BTreeMap::new(),
            handled: (0..nodes).map(|_| Handled::default()).collect(),
            loss: (0, 0),
            events: 0,
            weight: 0,
        }
    }

    fn event(&mut self) -> Played<()> {
        if self.weight > MOST_WEIGHT {
            return Err(Limit::Weight(self.weight));
        }
        if self.events == MOST_EVENTS {
            return Err(Limit::Events);
        }
        self.events += 1;
        Ok(())
    }

    fn live(&mut self, node: u8, range: u8) -> Option<&mut Replica> {
        match &mut self.nodes[node as usize - 1].seats[range as usize] {
            Status::Live(r) => Some(r),
            _ => None,
        }
    }

    fn ranges(&self, node: u8) -> Vec<u8> {
        let seats = &self.nodes[node as usize - 1].seats;
        (0..8).filter(|r| matches!(seats[*r as usize], Status::Live(_))).collect()
    }

    fn settle_ends(&mut self, ends: Vec<(CmdId, Outcome)>) {
        for (id, outcome) in ends {
            self.unplaced.remove(&(id.client, id.seq));
            self.replies.insert(id, outcome);
        }
    }

    fn take(&mut self, node: u8, range: u8, effects: Effects) {
        for (to, mail) in effects.messages {
            self.weight += weight_of(&mail);
            self.nodes[node as usize - 1].sent.push((to, range, mail));
        }
        self.settle_ends(effects.ends);
    }

    fn admit(&mut self, node: u8, range: u8, id: CmdId, request: &Request) -> Played<bool> {
        self.event()?;
        let answer = match self.live(node, range) {
            Some(r) => r.admit(id, request),
            None => Err(Refusal::NoReplica),
        };
        let admitted = answer.is_ok();
        self.replies.insert(id, answer.map_or_else(Outcome::Refused, |()| Outcome::Pending));
        let latest =
            Latest { request: request.clone(), attempt: id.attempt, node, range, had_place: false };
        self.latest.insert((id.client, id.seq), latest);
        if admitted {
            self.unplaced.insert((id.client, id.seq));
        }
        Ok(admitted)
    }

    fn draw(&mut self, node: u8, range: u8) -> Played<Option<usize>> {
        self.event()?;
        let (buffer, closed) = &mut self.nodes[node as usize - 1].buffers[range as usize];
        Ok(buffer.draw(*closed))
    }

    fn publish(&mut self, node: u8, range: u8, at: usize, item: Item) -> Played<()> {
        self.event()?;
        self.nodes[node as usize - 1].buffers[range as usize].0.publish(at, item);
        Ok(())
    }

    fn has_room(&self, node: u8, range: u8) -> bool {
        let (buffer, closed) = &self.nodes[node as usize - 1].buffers[range as usize];
        !closed && buffer.places.len() < 16
    }

    /// Draws a place for a command's latest attempt; false where the buffer is full.
    fn draw_command(&mut self, client: u16, seq: u32) -> Played<bool> {
        let (node, range, attempt) = {
            let l = &self.latest[&(client, seq)];
            (l.node, l.range, l.attempt)
        };
        let Some(at) = self.draw(node, range)? else { return Ok(false) };
        self.drawn.insert(CmdId { client, seq, attempt }, (node, range, at));
        self.unplaced.remove(&(client, seq));
        if let Some(l) = self.latest.get_mut(&(client, seq)) {
            l.had_place = true;
        }
        Ok(true)
    }

    fn publish_command(&mut self, id: CmdId) -> Played<()> {
        match self.drawn.remove(&id) {
            Some((node, range, at)) => self.publish(node, range, at, Item::Write(id)),
            None => Ok(()),
        }
    }

    fn note(&mut self, line: u32, text: impl Into<String>) {
        self.notes.push((line, text.into()));
    }

    fn place_both(&mut self, line: u32, id: CmdId) -> Played<()> {
        if self.draw_command(id.client, id.seq)? {
            self.publish_command(id)
        } else {
            self.note(line, "full 16");
            Ok(())
        }
    }

    fn again(&mut self, line: u32, node: u8, range: u8, client: u16, seq: u32) -> Played<()> {
        let (attempt, request) = {
            let l = &self.latest[&(client, seq)];
            (l.attempt, l.request.clone())
        };
        if !matches!(self.replies[&CmdId { client, seq, attempt }], Outcome::Refused(_)) {
            self.note(line, "not-refused");
            return Ok(());
        }
        let id = CmdId { client, seq, attempt: attempt + 1 };
        if self.admit(node, range, id, &request)? { self.place_both(line, id) } else { Ok(()) }
    }

    fn lease_ask(&mut self, line: u32, node: u8, range: u8, to: Option<u8>) -> Played<()> {
        self.event()?;
        let ticks = self.nodes[node as usize - 1].ticks;
        let answer = match self.live(node, range) {
            None => return Ok(self.note(line, "no-replica")),
            Some(r) => match to {
                None => r.ask(ticks),
                Some(to) => r.transfer(to, ticks),
            },
        };
        match answer {
            Ask::Held(lease) => self.note(line, format!("lease-held {lease} {ticks}")),
            Ask::NotHolder(lease) => self.note(line, format!("not-lease-holder {} {}", lease.holder, lease.seq)),
            Ask::Asked(ask) => match self.draw(node, range)? {
                Some(at) => self.publish(node, range, at, Item::Lease(ask))?,
                None => self.note(line, "full 16"),
            },
        }
        Ok(())
    }

    fn collect_and_flush(&mut self, node: u8, range: u8) -> Played<()> {
        self.event()?;
        let n = &mut self.nodes[node as usize - 1];
        let ticks = n.ticks;
        let taken = if let Status::Live(_) = n.seats[range as usize] {
            let (buffer, closed) = &mut n.buffers[range as usize];
            let (items, stays_closed) = buffer.collect();
            *closed = stays_closed;
            items
        } else {
            vec![]
        };
        if let Some(r) = self.live(node, range) {
            r.collect(taken);
        }
        self.event()?;
        if let Some(r) = self.live(node, range) {
            let effects = r.flush(ticks);
            self.take(node, range, effects);
        }
        Ok(())
    }

    /// Applies the next entry, if there is one.
    fn apply(&mut self, node: u8, range: u8) -> Played<bool> {
        self.event()?;
        let nodes = self.nodes.len() as u8;
        let Some(r) = self.live(node, range) else { return Ok(true) };
        if !r.has_entry() {
            return Ok(false);
        }
        let (ends, right) = r.apply();
        if let Some(state) = right {
            let seat = &mut self.nodes[node as usize - 1].seats[state.desc.id as usize];
            if let Status::Absent = seat {
                let raft = Raft::start(node, nodes, state.lease.holder, (10, 1));
                *seat = Status::Live(Box::new(Replica::new(raft, state, 10)));
            }
        }
        self.settle_ends(ends);
        Ok(true)
    }

    fn remove(&mut self, node: u8, range: u8) -> Played<()> {
        self.event()?;
        let seat = &mut self.nodes[node as usize - 1].seats[range as usize];
        match std::mem::replace(seat, Status::Absent) {
            Status::Live(mut r) => {
                let ends = r.removal();
                *seat = Status::Removed(r);
                self.settle_ends(ends);
            }
            other => *seat = other,
        }
        Ok(())
    }

    fn tick(&mut self, node: u8) -> Played<()> {
        self.event()?;
        let n = &mut self.nodes[node as usize - 1];
        n.ticks += 1;
        let ticks = n.ticks;
        for range in self.ranges(node) {
            if let Some(r) = self.live(node, range) {
                let effects = r.tick(ticks);
                self.take(node, range, effects);
            }
        }
        Ok(())
    }

    /// Delivers the message at this place of the sender's list.
    fn deliver(&mut self, from: u8, at: usize) -> Played<()> {
        self.event()?;
        let count = self.nodes.len() as u8;
        let mut list = std::mem::take(&mut self.nodes[from as usize - 1].sent);
        let (to, range, mail) = &mut list[at];
        let n = &mut self.nodes[*to as usize - 1];
        let ticks = n.ticks;
        let effects = match &mut n.seats[*range as usize] {
            Status::Live(r) => r.deliver(from, mail, ticks),
            Status::Removed(_) => Effects::default(),
            seat => Self::deliver_bare(seat, (*to, count), from, mail),
        };
        let (to, range) = (*to, *range);
        self.nodes[from as usize - 1].sent = list;
        self.take(to, range, effects);
        Ok(())
    }

    /// A node that has nothing of a range answers an Append, and takes a snapshot.
    fn deliver_bare(seat: &mut Status, (node, nodes): (u8, u8), from: u8, mail: &Mail) -> Effects {
        let mut effects = Effects::default();
        match mail {
            Message::Append { term, .. } => {
                effects.messages.push((from, Message::AppendReply { term: *term, ok: false, index: 0 }));
            }
            Message::Snap { term, index, index_term, snapshot } => {
                let raft = Raft::from_snap(node, nodes, *term, from, (*index, *index_term));
                *seat = Status::Live(Box::new(Replica::new(raft, Snapshot::clone(snapshot), *index)));
                effects.messages.push((from, Message::AppendReply { term: *term, ok: true, index: *index }));
            }
            _ => {}
        }
        effects
    }

    fn restart(&mut self, node: u8) -> Played<()> {
        self.event()?;
        for range in self.ranges(node) {
            if let Some(r) = self.live(node, range) {
                let ends = r.restart();
                self.settle_ends(ends);
            }
        }
        Ok(())
    }

    fn settle_places(&mut self) -> Played<()> {
        let mut due: BTreeSet<CmdId> = self.drawn.keys().copied().collect();
        due.extend(self.unplaced.iter().map(|(client, seq)| {
            let attempt = self.latest[&(*client, *seq)].attempt;
            CmdId { client: *client, seq: *seq, attempt }
        }));
        for id in due {
            if !self.drawn.contains_key(&id) {
                let l = &self.latest[&(id.client, id.seq)];
                let (node, range) = (l.node, l.range);
                let waits = self.live(node, range).is_some_and(|r| r.is_waiting(&id));
                if !waits || !self.has_room(node, range) || !self.draw_command(id.client, id.seq)? {
                    continue;
                }
            }
            self.publish_command(id)?;
        }
        Ok(())
    }

    fn settle_round(&mut self) -> Played<()> {
        self.settle_places()?;
        let count = self.nodes.len() as u8;
        for node in 1..=count {
            self.tick(node)?;
            for range in self.ranges(node) {
                self.collect_and_flush(node, range)?;
            }
        }
        for from in 1..=count {
            let end = self.nodes[from as usize - 1].sent.len();
            for at in self.handled[from as usize - 1].below..end {
                if !lost(self.loss.0, self.loss.1, from, at as u64 + 1) {
                    self.deliver(from, at)?;
                }
                self.handled[from as usize - 1].mark(at);
            }
        }
        for node in 1..=count {
            for range in self.ranges(node) {
                while self.live(node, range).is_some_and(|r| r.has_entry()) {
                    self.apply(node, range)?;
                }
            }
        }
        Ok(())
    }

    fn no_replica(&mut self, line: u32, node: u8, range: u8) {
        if self.live(node, range).is_none() {
            self.note(line, "no-replica");
        }
    }

    /// Plays a line of the script; the lines are those of `script::read`.
    pub fn play(&mut self, line: u32, what: &Line) -> Played<()> {
        match what {
            Line::Cluster(_) | Line::End => {}
            Line::Send { node, range, client, request, draws } => {
                let seq = self.sent_by_client.entry(*client).or_insert(0);
                *seq += 1;
                let id = CmdId { client: *client, seq: *seq, attempt: 1 };
                if self.admit(*node, *range, id, request)? && *draws {
                    self.place_both(line, id)?;
                }
            }
            Line::Again { node, range, client, seq } => self.again(line, *node, *range, *client, *seq)?,
            Line::Draw { client, seq } => self.draw_line(line, *client, *seq)?,
            Line::Publish { client, seq } => {
                let attempt = self.latest[&(*client, *seq)].attempt;
                let id = CmdId { client: *client, seq: *seq, attempt };
                match self.drawn.contains_key(&id) {
                    true => self.publish_command(id)?,
                    false => self.note(line, "nothing"),
                }
            }
            Line::Ask { node, range } => self.lease_ask(line, *node, *range, None)?,
            Line::Transfer { node, range, to } => self.lease_ask(line, *node, *range, Some(*to))?,
            Line::Flush { node, range } => {
                self.no_replica(line, *node, *range);
                self.collect_and_flush(*node, *range)?;
            }
            Line::Apply { node, range } => {
                self.no_replica(line, *node, *range);
                if !self.apply(*node, *range)? {
                    self.note(line, "nothing");
                }
            }
            Line::Cut { node, range } => {
                self.no_replica(line, *node, *range);
                self.event()?;
                if let Some(r) = self.live(*node, *range) {
                    r.cut();
                }
            }
            Line::Remove { node, range } => {
                self.no_replica(line, *node, *range);
                self.remove(*node, *range)?;
            }
            Line::Tick { node, count } => (0..*count).try_for_each(|_| self.tick(*node))?,
            Line::Deliver { node, number } => {
                let at = usize::try_from(*number - 1).unwrap_or(usize::MAX);
                if at < self.nodes[*node as usize - 1].sent.len() {
                    self.deliver(*node, at)?;
                    self.handled[*node as usize - 1].mark(at);
                } else {
                    self.note(line, "nothing");
                }
            }
            Line::Peek { node, range, key } => self.peek(line, *node, *range, *key)?,
            Line::Loss { percent, salt } => self.loss = (*percent, *salt),
            Line::Settle(rounds) => (0..*rounds).try_for_each(|_| self.settle_round())?,
            Line::Restart(node) => self.restart(*node)?,
        }
        Ok(())
    }

    fn draw_line(&mut self, line: u32, client: u16, seq: u32) -> Played<()> {
        let l = &self.latest[&(client, seq)];
        let id = CmdId { client, seq, attempt: l.attempt };
        let (node, range, had_place) = (l.node, l.range, l.had_place);
        if had_place || !self.live(node, range).is_some_and(|r| r.is_waiting(&id)) {
            self.note(line, "nothing");
        } else if !self.draw_command(client, seq)? {
            self.note(line, "full 16");
        }
        Ok(())
    }

    fn peek(&mut self, line: u32, node: u8, range: u8, key: Key) -> Played<()> {
        self.event()?;
        let text = match self.live(node, range) {
            None => "no-replica".to_string(),
            Some(r) => {
                let value = r.table.get(&key).cloned();
                format!("peek {} {} applied {}", Bound(key), OrNone(&value), r.applied)
            }
        };
        self.note(line, text);
        Ok(())
    }

    /// Judges the weight once more, behind the last event.
    pub fn ended(&self) -> Played<()> {
        if self.weight > MOST_WEIGHT { Err(Limit::Weight(self.weight)) } else { Ok(()) }
    }
}

