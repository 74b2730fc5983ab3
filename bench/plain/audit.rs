//! The audit of a race's report, by the definitions: its lists are played again on tables of their own, and its replies are held against
//! the script and the lists. A report of `run` can be audited too, but for its replies.
use crate::base::*;
use crate::script::{request_of, Line};
use std::collections::BTreeMap;
use std::str::SplitAsciiWhitespace;

/// A command, by its client and its number.
type Command = (u16, u32);

enum Item {
    Write { id: CmdId, request: Request, under: u64, reply: String },
    Split { id: CmdId, key: Key, right: u8, under: u64 },
    Lease(Lease),
}

enum Seat {
    Live { applied: u64, rows: Table },
    Removed { applied: u64 },
    Absent,
}

/// A range as it is told: its entries begin at its first index, and one that was passed over has no item.
struct Range {
    desc: Desc,
    lease: Lease,
    entries: Vec<(u64, Option<Item>)>,
    seats: Vec<Seat>,
}

/// A report as it is read: its replies are the ends of attempts.
#[derive(Default)]
pub struct Report {
    nodes: u8,
    replies: Vec<(CmdId, String)>,
    ranges: Vec<Range>,
}

fn number<N: TryFrom<u64>>(words: &mut SplitAsciiWhitespace) -> Option<N> {
    N::try_from(words.next()?.parse::<u64>().ok()?).ok()
}

fn bound(words: &mut SplitAsciiWhitespace) -> Option<u128> {
    match words.next()? {
        "^" => Some(0),
        "~" => Some(END),
        word => key_of(word),
    }
}

fn id_of(words: &mut SplitAsciiWhitespace) -> Option<CmdId> {
    let (client, seq) = words.next()?.split_once('.')?;
    Some(CmdId { client: client.parse().ok()?, seq: seq.parse().ok()?, attempt: number(words)? })
}

fn lease_of(words: &mut SplitAsciiWhitespace) -> Option<Lease> {
    Some(Lease { holder: number(words)?, seq: number(words)?, expires: number(words)? })
}

fn word(words: &mut SplitAsciiWhitespace, due: &str) -> Option<()> {
    (words.next()? == due).then_some(())
}

fn rest(words: SplitAsciiWhitespace) -> String {
    words.collect::<Vec<_>>().join(" ")
}

fn item_of(words: &mut SplitAsciiWhitespace) -> Option<Item> {
    Some(match words.next()? {
        "write" => {
            let id = id_of(words)?;
            let request = request_of(words)?;
            word(words, "under")?;
            let under = number(words)?;
            word(words, "ok")?;
            Item::Write { id, request, under, reply: rest(words.clone()) }
        }
        "split" => {
            let id = id_of(words)?;
            let key = bound(words)?;
            word(words, "right")?;
            let right = number(words)?;
            word(words, "under")?;
            Item::Split { id, key, right, under: number(words)? }
        }
        "lease" => Item::Lease(lease_of(words)?),
        _ => return None,
    })
}

fn range_of(words: &mut SplitAsciiWhitespace) -> Option<Range> {
    let (id, start, end) = (number(words)?, bound(words)?, bound(words)?);
    word(words, "level")?;
    let level = number(words)?;
    word(words, "lease")?;
    Some(Range { desc: Desc { id, level, start, end }, lease: lease_of(words)?, entries: vec![], seats: vec![] })
}

fn seat_of(words: &mut SplitAsciiWhitespace, node: usize) -> Option<Seat> {
    (number::<u64>(words)? == node as u64).then_some(())?;
    Some(match words.next()? {
        "none" => Seat::Absent,
        "removed" => {
            word(words, "applied")?;
            Seat::Removed { applied: number(words)? }
        }
        "live" => {
            word(words, "term")?;
            let _: u64 = number(words)?;
            word(words, "applied")?;
            Seat::Live { applied: number(words)?, rows: Table::new() }
        }
        _ => return None,
    })
}

fn value_of(word: &str) -> Option<Value> {
    match word.strip_prefix('\'') {
        Some(text) => Some(Value::Text(text.into())),
        None => word.parse().ok().map(Value::Number),
    }
}

impl Report {
    /// Takes a line; true where it is the last one.
    fn take(&mut self, line: &str) -> Option<bool> {
        let mut words = line.split_ascii_whitespace();
        match words.next()? {
            "nodes" => self.nodes = number(&mut words)?,
            "note" => {}
            "reply" => self.replies.push((id_of(&mut words)?, rest(words))),
            "range" => self.ranges.push(range_of(&mut words)?),
            "place" => {
                let at = number(&mut words)?;
                self.ranges.last_mut()?.entries.push((at, Some(item_of(&mut words)?)));
            }
            "pass" => self.ranges.last_mut()?.entries.push((number(&mut words)?, None)),
            "node" => {
                let seats = &mut self.ranges.last_mut()?.seats;
                seats.push(seat_of(&mut words, seats.len() + 1)?);
            }
            "row" => {
                let Seat::Live { rows, .. } = self.ranges.last_mut()?.seats.last_mut()? else { return None };
                let key = key_of(words.next()?)?;
                let above = rows.last_key_value().is_none_or(|(last, _)| *last < key);
                above.then_some(())?;
                rows.insert(key, value_of(words.next()?)?);
            }
            "end" => return Some(true),
            _ => return None,
        }
        Some(false)
    }

    /// Reads a report; the first line that is none.
    pub fn read(text: &str) -> Result<Report, String> {
        let mut report = Report::default();
        let mut ended = false;
        for line in text.lines() {
            let taken = if ended { None } else { report.take(line) };
            ended = taken.ok_or(format!("no line of a report: {line}"))?;
        }
        if ended { Ok(report) } else { Err("the report has no end".to_string()) }
    }
}

/// The state of a range along its list.
#[derive(Clone)]
struct State {
    table: Table,
    desc: Desc,
    lease: Lease,
}

/// Where a command took effect: its range, its index, its attempt and its reply.
struct Placed {
    range: u8,
    index: u64,
    attempt: u16,
    reply: String,
}

/// What is known of the script, and what was seen of the report so far: where commands took effect, and from which state a range starts.
struct Audit {
    requests: Option<BTreeMap<Command, Request>>,
    places: BTreeMap<Command, Placed>,
    starts: BTreeMap<u8, State>,
}

fn due(holds: bool, wrong: impl FnOnce() -> String) -> Result<(), String> {
    if holds { Ok(()) } else { Err(wrong()) }
}

/// A lease follows another: holder and sequence stay and the expiry does not fall, or the sequence rises by one.
fn follows(old: &Lease, new: &Lease) -> bool {
    let renewed = new.holder == old.holder && new.seq == old.seq && old.expires <= new.expires;
    renewed || new.seq == old.seq + 1
}

impl State {
    /// Plays a request: its reply, or its refusal; a split gives the state of its right part too.
    fn play(&mut self, request: &Request) -> Result<(Reply, Option<State>), Refusal> {
        let (ops, reply) = evaluate(&self.table, &self.desc, request)?;
        write(&mut self.table, &ops);
        let Request::Split(key) = request else { return Ok((reply, None)) };
        let level = self.desc.level + 1;
        let right = Desc { id: self.desc.right_id(), level, start: *key, end: self.desc.end };
        let table = self.table.split_off(key);
        self.desc = Desc { level, end: *key, ..self.desc };
        Ok((reply, Some(State { table, desc: right, lease: self.lease })))
    }
}

impl Audit {
    fn place(&mut self, id: CmdId, placed: Placed) -> Result<(), String> {
        let command = (id.client, id.seq);
        let (range, index) = (placed.range, placed.index);
        let earlier = self.places.insert(command, placed);
        due(earlier.is_none(), || format!("range {range} index {index}: {id} has two places"))
    }

    fn is_asked(&self, id: CmdId, request: &Request) -> bool {
        let Some(requests) = &self.requests else { return true };
        id.attempt >= 1 && requests.get(&(id.client, id.seq)) == Some(request)
    }

    /// An item names a request of the script once, under the state's lease, in its bounds, and its reply is that of its effect.
    fn request(&mut self, state: &mut State, at: u64, id: CmdId, request: &Request, under: u64, told: &str) -> Result<(), String> {
        let range = state.desc.id;
        let wrong = |what: &str| format!("range {range} index {at}: {id} {request} {what}");
        due(self.is_asked(id, request), || wrong("is no request of the script"))?;
        due(under == state.lease.seq, || wrong("is under another lease"))?;
        due(request.in_bounds(&state.desc), || wrong("is outside its range"))?;
        let (reply, right) = state.play(request).map_err(|why| wrong(&format!("is refused: {why}")))?;
        due(reply.to_string() == told, || wrong(&format!("has the reply {reply} and not {told}")))?;
        if let Some(right) = right {
            self.starts.insert(right.desc.id, right);
        }
        self.place(id, Placed { range, index: at, attempt: id.attempt, reply: told.to_string() })
    }

    fn item(&mut self, state: &mut State, at: u64, item: &Item) -> Result<(), String> {
        match item {
            Item::Write { id, request, under, reply } => self.request(state, at, *id, request, *under, reply),
            Item::Split { id, key, right, under } => {
                self.request(state, at, *id, &Request::Split(*key), *under, &format!("range {right}"))
            }
            Item::Lease(lease) => {
                due(follows(&state.lease, lease), || format!("range {} index {at}: a lease that does not follow", state.desc.id))?;
                state.lease = *lease;
                Ok(())
            }
        }
    }

    /// The entries run by one from the range's first index, each holds at the state that those before it leave, and each live replica's
    /// rows are those at its applied index.
    fn range(&mut self, range: &Range) -> Result<(), String> {
        let id = range.desc.id;
        let mut state = self.starts.remove(&id).ok_or(format!("range {id} was not split off"))?;
        let first = if id == 0 { 1 } else { 11 };
        let last = first + range.entries.len() as u64 - 1;
        rows_at(range, first - 1, &state)?;
        for (due_at, (at, item)) in (first..).zip(&range.entries) {
            due(due_at == *at, || format!("range {id}: index {at} where {due_at} is due"))?;
            if let Some(item) = item {
                self.item(&mut state, *at, item)?;
            }
            rows_at(range, *at, &state)?;
        }
        let left = state.desc == range.desc && state.lease == range.lease;
        due(left, || format!("range {id}: its bounds, level or lease are not those that its list leaves"))?;
        for seat in &range.seats {
            let (Seat::Live { applied, .. } | Seat::Removed { applied }) = seat else { continue };
            due((first - 1..=last).contains(applied), || format!("range {id}: applied {applied} is outside its list"))?;
        }
        Ok(())
    }

    fn ranges(&mut self, report: &Report) -> Result<(), String> {
        due(report.ranges.first().is_some_and(|r| r.desc.id == 0), || "range 0 is not there first".to_string())?;
        due(report.ranges.windows(2).all(|two| two[0].desc.id < two[1].desc.id), || "the ranges do not ascend".to_string())?;
        for range in &report.ranges {
            due(range.seats.len() == report.nodes as usize, || format!("range {} has not each node", range.desc.id))?;
            self.range(range)?;
        }
        Ok(())
    }

    /// What is told of an attempt is what the lists show.
    fn reply(&self, id: CmdId, end: &str) -> Result<(), String> {
        let place = self.places.get(&(id.client, id.seq));
        let own = place.filter(|p| p.attempt == id.attempt);
        let holds = match end.split_once(' ').unwrap_or((end, "")) {
            ("ok", reply) => own.is_some_and(|p| p.reply == reply),
            ("refused", _) => own.is_none(),
            ("unsent", "") => place.is_none() && id.attempt == 0,
            ("pending", "") => true,
            ("ambiguous", _) => true,
            _ => false,
        };
        due(holds, || format!("reply {id} {end} is not what the lists show"))
    }

    /// Each command of the script has one reply, by client and number, and only its latest attempt can have a place.
    fn commands(&self, report: &Report) -> Result<(), String> {
        let Some(requests) = &self.requests else { return Ok(()) };
        let told = report.replies.iter().map(|(id, _)| (id.client, id.seq));
        due(told.eq(requests.keys().copied()), || "the replies are not those of the script's commands".to_string())?;
        let attempts: BTreeMap<Command, u16> = report.replies.iter().map(|(id, _)| ((id.client, id.seq), id.attempt)).collect();
        for (command, place) in &self.places {
            let latest = attempts.get(command) == Some(&place.attempt);
            due(latest, || format!("{}.{} has a place by another attempt than its latest", command.0, command.1))?;
        }
        Ok(())
    }

    /// A client's commands stand in one range in the order in which it sent them: each began when the one before it had ended.
    fn order(&self, report: &Report) -> Result<(), String> {
        if self.requests.is_none() {
            return Ok(());
        }
        let ended: Vec<&CmdId> = report.replies.iter().filter(|(_, end)| end.starts_with("ok ")).map(|(id, _)| id).collect();
        let mut last: BTreeMap<(u16, u8), u64> = BTreeMap::new();
        for id in ended {
            let Some(place) = self.places.get(&(id.client, id.seq)) else { continue };
            let before = last.insert((id.client, place.range), place.index);
            due(before < Some(place.index), || format!("{id} stands before an earlier command of its client"))?;
        }
        Ok(())
    }
}

fn rows_at(range: &Range, at: u64, state: &State) -> Result<(), String> {
    for (node, seat) in (1..).zip(&range.seats) {
        match seat {
            Seat::Live { applied, rows } if *applied == at => {
                due(*rows == state.table, || format!("range {}: the rows of node {node} are not those of its list", range.desc.id))?;
            }
            _ => {}
        }
    }
    Ok(())
}

/// Whether a command is open, by how its latest attempt ended.
fn is_open(end: &str) -> bool {
    let again = ["refused no-replica", "refused not-lease-holder ", "refused range-mismatch ", "refused latched "];
    end == "unsent" || end == "pending" || again.iter().any(|refusal| end.starts_with(refusal))
}

/// The requests of a race's script by command, in the order in which the clients send them.
fn requests_in(lines: &[(u32, Line)]) -> BTreeMap<Command, Request> {
    let mut counts: BTreeMap<u16, u32> = BTreeMap::new();
    let mut requests = BTreeMap::new();
    for (_, line) in lines {
        if let Line::Send { client, request, .. } = line {
            let seq = counts.entry(*client).or_default();
            *seq += 1;
            requests.insert((*client, *seq), request.clone());
        }
    }
    requests
}

/// Audits a report. Of a race it has the script's lines and the exit status; of a run neither, and its replies are only held against its
/// lists. What was found wrong first, or how many commands ended and how many did not.
pub fn audit(race: Option<(&[(u32, Line)], u8)>, report: &Report) -> Result<(usize, usize), String> {
    let lease = Lease { holder: 1, seq: 1, expires: 40 };
    let first = State { table: Table::new(), desc: Desc { id: 0, level: 0, start: 0, end: END }, lease };
    let mut audit = Audit {
        requests: race.map(|(lines, _)| requests_in(lines)),
        places: BTreeMap::new(),
        starts: BTreeMap::from([(0, first)]),
    };
    audit.ranges(report)?;
    report.replies.iter().try_for_each(|(id, end)| audit.reply(*id, end))?;
    audit.commands(report)?;
    audit.order(report)?;
    let open = report.replies.iter().filter(|(_, end)| is_open(end)).count();
    if let Some((lines, status)) = race {
        let nodes = lines.iter().find_map(|(_, line)| if let Line::Cluster(nodes) = line { Some(*nodes) } else { None });
        due(nodes == Some(report.nodes), || "the nodes are not those of the script".to_string())?;
        let wanted = if open == 0 { 0 } else { 8 };
        due(status == wanted, || format!("{open} open commands, and status {status}"))?;
    }
    Ok((report.replies.len() - open, open))
}
