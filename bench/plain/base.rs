//! Keys, values, requests and what they answer.
use std::collections::BTreeMap;
use std::fmt;

/// A key, left-aligned in a number, so that number order is byte order. Bound 0 is the start of all keys.
pub type Key = u128;
pub const END: u128 = u128::MAX;

/// A bound as it is shown.
pub struct Bound(pub u128);

impl fmt::Display for Bound {
    fn fmt(&self, f: &mut fmt::Formatter) -> fmt::Result {
        match self.0 {
            0 => f.write_str("^"),
            END => f.write_str("~"),
            key => key.to_be_bytes().iter().take_while(|b| **b != 0).try_for_each(|b| write!(f, "{}", *b as char)),
        }
    }
}

pub fn key_of(word: &str) -> Option<Key> {
    let good = |b: u8| b.is_ascii_lowercase() || b.is_ascii_digit() || b"/_-".contains(&b);
    let bytes = word.as_bytes();
    if bytes.is_empty() || bytes.len() > 16 || !bytes.iter().all(|b| good(*b)) {
        return None;
    }
    let mut all = [0; 16];
    all[..bytes.len()].copy_from_slice(bytes);
    Some(u128::from_be_bytes(all))
}

pub fn key_len(key: Key) -> usize {
    16 - key.trailing_zeros() as usize / 8
}

#[derive(Clone, PartialEq, Eq, Debug)]
pub enum Value {
    Number(u64),
    Text(Box<str>),
}

impl fmt::Display for Value {
    fn fmt(&self, f: &mut fmt::Formatter) -> fmt::Result {
        match self {
            Value::Number(n) => write!(f, "{n}"),
            Value::Text(t) => write!(f, "'{t}"),
        }
    }
}

pub struct OrNone<'a, T>(pub &'a Option<T>);

impl<T: fmt::Display> fmt::Display for OrNone<'_, T> {
    fn fmt(&self, f: &mut fmt::Formatter) -> fmt::Result {
        match self.0 {
            None => f.write_str("none"),
            Some(v) => v.fmt(f),
        }
    }
}

#[derive(Clone, Copy, PartialEq, Eq, PartialOrd, Ord, Hash, Debug)]
pub struct CmdId {
    pub client: u16,
    pub seq: u32,
    pub attempt: u16,
}

impl fmt::Display for CmdId {
    fn fmt(&self, f: &mut fmt::Formatter) -> fmt::Result {
        write!(f, "{}.{} {}", self.client, self.seq, self.attempt)
    }
}

#[derive(Clone, PartialEq, Eq, Debug)]
pub enum Request {
    Put(Key, Value),
    Add(Key, u64),
    CPut(Key, Option<Value>, Value),
    Del(Key),
    Wipe(Key, u128),
    Move(Key, Key, u64),
    Split(Key),
}

pub type Span = (u128, u128);

impl Request {
    /// The spans that it latches.
    pub fn spans(&self) -> (Span, Option<Span>) {
        let one = |k: Key| (k, k + 1);
        match self {
            Request::Put(k, _) | Request::Add(k, _) | Request::CPut(k, _, _) | Request::Del(k) => (one(*k), None),
            Request::Wipe(a, b) => ((*a, *b), None),
            Request::Move(a, b, _) => (one(*a), (a != b).then(|| one(*b))),
            Request::Split(_) => ((0, END), None),
        }
    }

    pub fn in_bounds(&self, desc: &Desc) -> bool {
        let within = |s: Span| desc.start <= s.0 && s.1 <= desc.end;
        match self {
            Request::Split(k) => desc.start <= *k && *k < desc.end,
            _ => {
                let (first, second) = self.spans();
                within(first) && second.map_or(true, within)
            }
        }
    }
}

impl fmt::Display for Request {
    fn fmt(&self, f: &mut fmt::Formatter) -> fmt::Result {
        match self {
            Request::Put(k, v) => write!(f, "put {} {v}", Bound(*k)),
            Request::Add(k, d) => write!(f, "add {} {d}", Bound(*k)),
            Request::CPut(k, e, v) => write!(f, "cput {} {} {v}", Bound(*k), OrNone(e)),
            Request::Del(k) => write!(f, "del {}", Bound(*k)),
            Request::Wipe(a, b) => write!(f, "wipe {} {}", Bound(*a), Bound(*b)),
            Request::Move(a, b, d) => write!(f, "move {} {} {d}", Bound(*a), Bound(*b)),
            Request::Split(k) => write!(f, "split {}", Bound(*k)),
        }
    }
}

#[derive(Clone, PartialEq, Eq, Debug)]
pub enum Reply {
    Old(Option<Value>),
    Now(u64),
    Set,
    Count(u64),
    Range(u8),
}

impl fmt::Display for Reply {
    fn fmt(&self, f: &mut fmt::Formatter) -> fmt::Result {
        match self {
            Reply::Old(v) => OrNone(v).fmt(f),
            Reply::Now(n) | Reply::Count(n) => write!(f, "{n}"),
            Reply::Set => f.write_str("set"),
            Reply::Range(id) => write!(f, "range {id}"),
        }
    }
}

#[derive(Clone, Copy, PartialEq, Eq, Debug)]
pub struct Desc {
    pub id: u8,
    pub level: u8,
    pub start: u128,
    pub end: u128,
}

impl Desc {
    pub fn right_id(&self) -> u8 {
        self.id + (1 << self.level)
    }
}

#[derive(Clone, Copy, PartialEq, Eq, Debug)]
pub struct Lease {
    pub holder: u8,
    pub seq: u64,
    pub expires: u64,
}

impl fmt::Display for Lease {
    fn fmt(&self, f: &mut fmt::Formatter) -> fmt::Result {
        write!(f, "{} {} {}", self.holder, self.seq, self.expires)
    }
}

#[derive(Clone, Copy, PartialEq, Eq, Debug)]
pub struct LeaseAsk {
    pub holder: u8,
    pub prev: u64,
    pub expires: u64,
}

impl Lease {
    /// The lease that an ask makes of this one.
    pub fn after(&self, ask: &LeaseAsk) -> Option<Lease> {
        if ask.prev != self.seq {
            return None;
        }
        Some(if ask.holder != self.holder {
            Lease { holder: ask.holder, seq: self.seq + 1, expires: ask.expires }
        } else if ask.expires == 0 {
            Lease { seq: self.seq + 1, ..*self }
        } else {
            Lease { expires: self.expires.max(ask.expires), ..*self }
        })
    }
}

#[derive(Clone, PartialEq, Eq, Debug)]
pub enum Refusal {
    NoReplica,
    NotLeaseHolder(Lease),
    RangeMismatch(Desc),
    Latched(CmdId),
    IsText(Key),
    ConditionFailed(Option<Value>),
    Overflow(u64),
    Short(u64),
    TooWide(u64),
    NotInside,
    SplitLimit(u8),
}

impl fmt::Display for Refusal {
    fn fmt(&self, f: &mut fmt::Formatter) -> fmt::Result {
        match self {
            Refusal::NoReplica => f.write_str("no-replica"),
            Refusal::NotLeaseHolder(l) => write!(f, "not-lease-holder {} {}", l.holder, l.seq),
            Refusal::RangeMismatch(d) => {
                write!(f, "range-mismatch {} {} {} {}", d.id, Bound(d.start), Bound(d.end), d.level)
            }
            Refusal::Latched(id) => write!(f, "latched {id}"),
            Refusal::IsText(k) => write!(f, "is-text {}", Bound(*k)),
            Refusal::ConditionFailed(v) => write!(f, "condition-failed {}", OrNone(v)),
            Refusal::Overflow(n) => write!(f, "overflow {n}"),
            Refusal::Short(n) => write!(f, "short {n}"),
            Refusal::TooWide(n) => write!(f, "too-wide {n}"),
            Refusal::NotInside => f.write_str("not-inside"),
            Refusal::SplitLimit(l) => write!(f, "split-limit {l}"),
        }
    }
}

#[derive(Clone, PartialEq, Eq, Debug)]
pub enum Outcome {
    Pending,
    Ok(Reply),
    Refused(Refusal),
    Overtaken { own: u64, passed: u64 },
    Removed { own: u64 },
    Restarted { own: u64 },
}

impl fmt::Display for Outcome {
    fn fmt(&self, f: &mut fmt::Formatter) -> fmt::Result {
        match self {
            Outcome::Pending => f.write_str("pending"),
            Outcome::Ok(r) => write!(f, "ok {r}"),
            Outcome::Refused(r) => write!(f, "refused {r}"),
            Outcome::Overtaken { own, passed } => write!(f, "ambiguous snapshot {own} {passed}"),
            Outcome::Removed { own } => write!(f, "ambiguous removed {own}"),
            Outcome::Restarted { own } => write!(f, "ambiguous restarted {own}"),
        }
    }
}

#[derive(Clone, PartialEq, Eq, Debug)]
pub enum Op {
    Set(Key, Value),
    Remove(Key),
}

pub type Table = BTreeMap<Key, Value>;

fn number_at(table: &Table, key: Key) -> Result<u64, Refusal> {
    match table.get(&key) {
        None => Ok(0),
        Some(Value::Number(n)) => Ok(*n),
        Some(Value::Text(_)) => Err(Refusal::IsText(key)),
    }
}

fn moved(table: &Table, a: Key, b: Key, by: u64) -> Result<(Vec<Op>, Reply), Refusal> {
    let from = number_at(table, a)?;
    let to = number_at(table, b)?;
    let left = from.checked_sub(by).ok_or(Refusal::Short(from))?;
    if a == b {
        return Ok((vec![Op::Set(a, Value::Number(from))], Reply::Now(from)));
    }
    let sum = to.checked_add(by).ok_or(Refusal::Overflow(to))?;
    Ok((vec![Op::Set(a, Value::Number(left)), Op::Set(b, Value::Number(sum))], Reply::Now(left)))
}

/// What a request does to a table: its writes and its reply, or its refusal.
pub fn evaluate(table: &Table, desc: &Desc, request: &Request) -> Result<(Vec<Op>, Reply), Refusal> {
    match request {
        Request::Put(k, v) => Ok((vec![Op::Set(*k, v.clone())], Reply::Old(table.get(k).cloned()))),
        Request::Add(k, d) => {
            let old = number_at(table, *k)?;
            let new = old.checked_add(*d).ok_or(Refusal::Overflow(old))?;
            Ok((vec![Op::Set(*k, Value::Number(new))], Reply::Now(new)))
        }
        Request::CPut(k, expect, v) => match table.get(k) == expect.as_ref() {
            true => Ok((vec![Op::Set(*k, v.clone())], Reply::Set)),
            false => Err(Refusal::ConditionFailed(table.get(k).cloned())),
        },
        Request::Del(k) => Ok((vec![Op::Remove(*k)], Reply::Old(table.get(k).cloned()))),
        Request::Wipe(a, b) => {
            let keys: Vec<Op> = table.range(*a..*b).map(|(k, _)| Op::Remove(*k)).collect();
            let count = keys.len() as u64;
            if count > 16 { Err(Refusal::TooWide(count)) } else { Ok((keys, Reply::Count(count))) }
        }
        Request::Move(a, b, d) => moved(table, *a, *b, *d),
        Request::Split(k) if *k == desc.start => Err(Refusal::NotInside),
        Request::Split(_) if desc.level == 3 => Err(Refusal::SplitLimit(3)),
        Request::Split(_) => Ok((vec![], Reply::Range(desc.right_id()))),
    }
}

pub fn write(table: &mut Table, ops: &[Op]) {
    for op in ops {
        match op {
            Op::Set(k, v) => table.insert(*k, v.clone()),
            Op::Remove(k) => table.remove(k),
        };
    }
}
