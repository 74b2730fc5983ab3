//! Lines of a script that is well formed; of any other it is only said that it is refused.
use crate::base::*;

pub enum Line {
    Cluster(u8),
    Send { node: u8, range: u8, client: u16, request: Request, draws: bool },
    Again { node: u8, range: u8, client: u16, seq: u32 },
    Draw { client: u16, seq: u32 },
    Publish { client: u16, seq: u32 },
    Ask { node: u8, range: u8 },
    Transfer { node: u8, range: u8, to: u8 },
    Flush { node: u8, range: u8 },
    Apply { node: u8, range: u8 },
    Cut { node: u8, range: u8 },
    Remove { node: u8, range: u8 },
    Tick { node: u8, count: u64 },
    Deliver { node: u8, number: u64 },
    Peek { node: u8, range: u8, key: Key },
    Loss { percent: u8, salt: u64 },
    Settle(u64),
    Restart(u8),
    End,
}

struct Words<'a>(std::str::SplitAsciiWhitespace<'a>);

impl<'a> Words<'a> {
    fn word(&mut self) -> Option<&'a str> {
        self.0.next()
    }

    fn number<N: TryFrom<u64>>(&mut self) -> Option<N> {
        N::try_from(self.word()?.parse::<u64>().ok()?).ok()
    }

    fn key(&mut self) -> Option<Key> {
        key_of(self.word()?)
    }

    fn value(word: &str) -> Option<Value> {
        match word.strip_prefix('\'') {
            Some(text) => Some(Value::Text(text.into())),
            None => word.parse().ok().map(Value::Number),
        }
    }

    fn request(&mut self) -> Option<Request> {
        Some(match self.word()? {
            "put" => Request::Put(self.key()?, Self::value(self.word()?)?),
            "add" => Request::Add(self.key()?, self.number()?),
            "cput" => {
                let key = self.key()?;
                let expect = match self.word()? {
                    "none" => None,
                    word => Some(Self::value(word)?),
                };
                Request::CPut(key, expect, Self::value(self.word()?)?)
            }
            "del" => Request::Del(self.key()?),
            "wipe" => {
                let start = self.key()?;
                let end = match self.word()? {
                    "~" => END,
                    word => key_of(word)?,
                };
                Request::Wipe(start, end)
            }
            "move" => Request::Move(self.key()?, self.key()?, self.number()?),
            "split" => Request::Split(self.key()?),
            _ => return None,
        })
    }

    fn line(&mut self) -> Option<Line> {
        Some(match self.word()? {
            "cluster" => Line::Cluster(self.number()?),
            word @ ("send" | "admit") => Line::Send {
                node: self.number()?,
                range: self.number()?,
                client: self.number()?,
                request: self.request()?,
                draws: word == "send",
            },
            "again" => Line::Again {
                node: self.number()?,
                range: self.number()?,
                client: self.number()?,
                seq: self.number()?,
            },
            "draw" => Line::Draw { client: self.number()?, seq: self.number()? },
            "publish" => Line::Publish { client: self.number()?, seq: self.number()? },
            "ask" => Line::Ask { node: self.number()?, range: self.number()? },
            "transfer" => Line::Transfer { node: self.number()?, range: self.number()?, to: self.number()? },
            "flush" => Line::Flush { node: self.number()?, range: self.number()? },
            "apply" => Line::Apply { node: self.number()?, range: self.number()? },
            "cut" => Line::Cut { node: self.number()?, range: self.number()? },
            "remove" => Line::Remove { node: self.number()?, range: self.number()? },
            "tick" => Line::Tick { node: self.number()?, count: self.number()? },
            "deliver" => Line::Deliver { node: self.number()?, number: self.number()? },
            "peek" => Line::Peek { node: self.number()?, range: self.number()?, key: self.key()? },
            "loss" => Line::Loss { percent: self.number()?, salt: self.number()? },
            "settle" => Line::Settle(self.number()?),
            "restart" => Line::Restart(self.number()?),
            "end" => Line::End,
            _ => return None,
        })
    }
}

/// The request that the next words spell.
pub fn request_of(words: &mut std::str::SplitAsciiWhitespace) -> Option<Request> {
    let mut at = Words(words.clone());
    let request = at.request();
    *words = at.0;
    request
}

/// The lines that are not skipped, with their numbers; the number of the first that cannot be read.
pub fn read(text: &str) -> Result<Vec<(u32, Line)>, u32> {
    let mut lines = vec![];
    for (number, line) in (1..).zip(text.split('\n')) {
        let mut words = Words(line.split_ascii_whitespace());
        if line.trim_start_matches(' ').is_empty() || line.trim_start_matches(' ').starts_with('#') {
            continue;
        }
        lines.push((number, words.line().ok_or(number)?));
    }
    Ok(lines)
}
