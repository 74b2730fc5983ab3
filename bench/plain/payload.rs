//! What the log carries, and how many bytes its spelling has (the weight of a message counts them).
use crate::base::*;

#[derive(Debug)]
pub struct Command {
    pub id: CmdId,
    pub request: Request,
    pub ops: Vec<Op>,
    pub reply: Reply,
    pub seq: u64,
    pub max: u64,
}

#[derive(Debug)]
pub enum Payload {
    Nothing,
    Write(Command),
    Lease(LeaseAsk),
}

/// What is evaluated for one command and never changes.
#[derive(Clone, Copy)]
enum Spelling {
    Numbers,
    Texts,
}

fn value_len(value: &Value, s: Spelling) -> usize {
    match (value, s) {
        (Value::Number(_), Spelling::Numbers) => 8,
        (Value::Number(_), Spelling::Texts) => 9,
        (Value::Text(t), _) => 2 + t.len(),
    }
}

fn option_len(value: &Option<Value>, s: Spelling) -> usize {
    1 + value.as_ref().map_or(0, |v| value_len(v, s))
}

fn spelled_key(key: Key) -> usize {
    1 + key_len(key)
}

fn request_len(request: &Request, s: Spelling) -> usize {
    1 + match request {
        Request::Put(k, v) => spelled_key(*k) + value_len(v, s),
        Request::Add(k, _) => spelled_key(*k) + 8,
        Request::CPut(k, e, v) => spelled_key(*k) + option_len(e, s) + value_len(v, s),
        Request::Del(k) | Request::Split(k) => spelled_key(*k),
        Request::Wipe(a, b) => spelled_key(*a) + if *b == END { 1 } else { spelled_key(*b) },
        Request::Move(a, b, _) => spelled_key(*a) + spelled_key(*b) + 8,
    }
}

fn reply_len(reply: &Reply, s: Spelling) -> usize {
    1 + match reply {
        Reply::Old(v) => option_len(v, s),
        Reply::Now(_) | Reply::Count(_) => 8,
        Reply::Set => 0,
        Reply::Range(_) => 1,
    }
}

fn op_len(op: &Op, s: Spelling) -> usize {
    1 + match op {
        Op::Set(k, v) => spelled_key(*k) + value_len(v, s),
        Op::Remove(k) => spelled_key(*k),
    }
}

fn is_text(value: &Value) -> bool {
    matches!(value, Value::Text(_))
}

fn has_text(c: &Command) -> bool {
    let in_request = match &c.request {
        Request::Put(_, v) => is_text(v),
        Request::CPut(_, e, v) => is_text(v) || e.as_ref().is_some_and(is_text),
        _ => false,
    };
    let in_reply = matches!(&c.reply, Reply::Old(Some(v)) if is_text(v));
    in_request || in_reply || c.ops.iter().any(|op| matches!(op, Op::Set(_, v) if is_text(v)))
}

impl Payload {
    pub fn len(&self) -> usize {
        match self {
            Payload::Nothing => 2,
            Payload::Lease(_) => 2 + 1 + 8 + 8,
            Payload::Write(c) => {
                let s = if has_text(c) { Spelling::Texts } else { Spelling::Numbers };
                let ops: usize = c.ops.iter().map(|op| op_len(op, s)).sum();
                2 + 2 + 4 + 2 + 8 + 8 + request_len(&c.request, s) + reply_len(&c.reply, s) + 1 + ops
            }
        }
    }
}
