//! What is written of a world: a report as text or JSON, or ten counts.
use crate::base::*;
use crate::payload::Payload;
use crate::raft::Message;
use crate::replica::*;
use crate::world::{Status, World};
use std::collections::BTreeSet;
use std::fmt::Write;

fn command_item(payload: &Payload, right: Option<u8>) -> String {
    let Payload::Write(c) = payload else { return String::new() };
    match (&c.request, right) {
        (Request::Split(key), Some(right)) => {
            format!("split {} {} right {right} under {}", c.id, Bound(*key), c.seq)
        }
        _ => format!("write {} {} under {} ok {}", c.id, c.request, c.seq, c.reply),
    }
}

fn why(why: Why) -> &'static str {
    match why {
        Why::Nothing => "nothing",
        Why::OldLease => "old-lease",
        Why::OldIndex => "old-index",
        Why::LeaseMoved => "lease-moved",
    }
}

/// A record as a line of text, without its index: whether it has a place, and its item or why it passed.
fn record_text(record: &Record) -> (bool, String) {
    match record {
        Record::Write(payload) => (true, command_item(payload, None)),
        Record::Split { command, right } => (true, command_item(command, Some(*right))),
        Record::Lease(lease) => (true, format!("lease {lease}")),
        Record::Passed(w) => (false, why(*w).to_string()),
    }
}

/// One range of the world: the state after its whole list, and its records from its first index on.
pub struct RangeList<'a> {
    pub id: u8,
    pub last: &'a Replica,
    pub first: u64,
    pub records: Vec<&'a Record>,
}

fn applied_at<'a>(seat: &'a Status) -> Option<&'a Replica> {
    match seat {
        Status::Absent => None,
        Status::Live(r) | Status::Removed(r) => Some(r),
    }
}

pub fn ranges(world: &World) -> Vec<RangeList<'_>> {
    (0..8).filter_map(|id| range(world, id)).collect()
}

fn range(world: &World, id: u8) -> Option<RangeList<'_>> {
    let seats: Vec<&Replica> = world.nodes.iter().filter_map(|n| applied_at(&n.seats[id as usize])).collect();
    let last = *seats.iter().max_by_key(|r| r.applied)?;
    let first = if id == 0 { 1 } else { 11 };
    let mut records: Vec<Option<&Record>> = vec![None; (last.applied + 1 - first) as usize];
    for piece in seats.iter().flat_map(|r| &r.pieces) {
        for (at, record) in (piece.first + 1..).zip(&piece.list) {
            records[(at - first) as usize] = Some(record);
        }
    }
    Some(RangeList { id, last, first, records: records.into_iter().flatten().collect() })
}

pub fn text(world: &World) -> String {
    let mut out = format!("nodes {}\n", world.nodes.len());
    for (line, note) in &world.notes {
        let _ = writeln!(out, "note {line} {note}");
    }
    for (id, outcome) in &world.replies {
        let _ = writeln!(out, "reply {id} {outcome}");
    }
    for r in ranges(world) {
        let d = &r.last.desc;
        let _ = writeln!(
            out,
            "range {} {} {} level {} lease {}",
            r.id,
            Bound(d.start),
            Bound(d.end),
            d.level,
            r.last.lease
        );
        for (at, record) in (r.first..).zip(&r.records) {
            let (placed, text) = record_text(record);
            let _ = writeln!(out, "{} {at} {text}", if placed { "place" } else { "pass" });
        }
        for (node, n) in (1..).zip(&world.nodes) {
            seat_text(&mut out, node, &n.seats[r.id as usize]);
        }
    }
    out.push_str("end\n");
    out
}

fn seat_text(out: &mut String, node: u8, seat: &Status) {
    let _ = match seat {
        Status::Absent => writeln!(out, "node {node} none"),
        Status::Removed(r) => writeln!(out, "node {node} removed applied {}", r.applied),
        Status::Live(r) => {
            let _ = writeln!(out, "node {node} live term {} applied {} lai {}", r.raft.term, r.applied, r.lai);
            r.table.iter().try_for_each(|(k, v)| writeln!(out, "row {} {v}", Bound(*k)))
        }
    };
}

fn quoted(text: &str) -> String {
    format!("\"{}\"", text.replace('\\', "\\\\").replace('"', "\\\""))
}

fn listed(items: impl IntoIterator<Item = String>) -> String {
    format!("[{}]", items.into_iter().collect::<Vec<_>>().join(","))
}

pub fn json(world: &World) -> String {
    let notes = world.notes.iter().map(|(line, text)| format!("{{\"line\":{line},\"text\":{}}}", quoted(text)));
    let replies = world.replies.iter().map(|(id, o)| {
        let outcome = quoted(&o.to_string());
        format!(
            "{{\"attempt\":{},\"client\":{},\"outcome\":{outcome},\"seq\":{}}}",
            id.attempt, id.client, id.seq
        )
    });
    let ranges = ranges(world);
    let ranges = ranges.iter().map(|r| range_json(world, r));
    format!(
        "{{\"nodes\":{},\"notes\":{},\"ranges\":{},\"replies\":{}}}\n",
        world.nodes.len(),
        listed(notes),
        listed(ranges),
        listed(replies)
    )
}

fn range_json(world: &World, r: &RangeList) -> String {
    let list = (r.first..).zip(&r.records).map(|(at, record)| {
        let (placed, text) = record_text(record);
        let text = if placed { text } else { format!("pass {text}") };
        format!("{{\"index\":{at},\"text\":{}}}", quoted(&text))
    });
    let seats = (1..).zip(&world.nodes).map(|(node, n)| seat_json(node, &n.seats[r.id as usize]));
    let (d, l) = (&r.last.desc, &r.last.lease);
    format!(
        "{{\"end\":{},\"id\":{},\"lease\":[{},{},{}],\"level\":{},\"list\":{},\"replicas\":{},\"start\":{}}}",
        quoted(&Bound(d.end).to_string()),
        r.id,
        l.holder,
        l.seq,
        l.expires,
        d.level,
        listed(list),
        listed(seats),
        quoted(&Bound(d.start).to_string())
    )
}

fn seat_json(node: u8, seat: &Status) -> String {
    match seat {
        Status::Absent => format!("{{\"node\":{node},\"state\":\"none\"}}"),
        Status::Removed(r) => format!("{{\"applied\":{},\"node\":{node},\"state\":\"removed\"}}", r.applied),
        Status::Live(r) => {
            let rows = r.table.iter().map(|(k, v)| {
                let value = match v {
                    Value::Number(n) => n.to_string(),
                    Value::Text(t) => quoted(t),
                };
                format!("[{},{value}]", quoted(&Bound(*k).to_string()))
            });
            format!(
                "{{\"applied\":{},\"lai\":{},\"node\":{node},\"rows\":{},\"state\":\"live\",\"term\":{}}}",
                r.applied,
                r.lai,
                listed(rows),
                r.raft.term
            )
        }
    }
}

pub fn summary(world: &World) -> String {
    let commands: BTreeSet<(u16, u32)> = world.replies.keys().map(|id| (id.client, id.seq)).collect();
    let mut counts = [0; 4];
    for outcome in world.replies.values() {
        let at = match outcome {
            Outcome::Ok(_) => 0,
            Outcome::Refused(_) => 1,
            Outcome::Pending => 3,
            _ => 2,
        };
        counts[at] += 1;
    }
    let ranges = ranges(world);
    let records = ranges.iter().flat_map(|r| &r.records);
    let (places, passed) = records.fold((0, 0), |(a, b), r| if record_text(r).0 { (a + 1, b) } else { (a, b + 1) });
    let messages: usize = world.nodes.iter().map(|n| n.sent.len()).sum();
    format!(
        "commands {}\nattempts {}\nok {}\nrefused {}\nambiguous {}\npending {}\nranges {}\nplaces {places}\npassed {passed}\nmessages {messages}\n",
        commands.len(),
        world.replies.len(),
        counts[0],
        counts[1],
        counts[2],
        counts[3],
        ranges.len()
    )
}

/// What a run took: attempts, those that ended well, events of nodes and buffers, messages, and entries
/// that messages carried.
pub fn cost(world: &World) -> String {
    let ok = world.replies.values().filter(|o| matches!(o, Outcome::Ok(_))).count();
    let sent = || world.nodes.iter().flat_map(|n| &n.sent);
    let entries: usize = sent().map(|(_, _, mail)| if let Message::Append { entries, .. } = mail { entries.len() } else { 0 }).sum();
    let bytes: usize = sent()
        .map(|(_, _, mail)| match mail {
            Message::Append { entries, .. } => entries.iter().map(|e| e.payload.len()).sum(),
            Message::Forward { payload } => payload.len(),
            _ => 0,
        })
        .sum();
    format!("{} {ok} {} {} {entries} {bytes}\n", world.replies.len(), world.events, sent().count())
}
