//! What `prio` is measured against: the calls `reserved`, `send`, `sendv`, `recv` and `close` of its scripts, in plain
//! Rust over a mutex round the standard library's heap. It stops with status 1 at a line that it does not know.

mod item;

use item::Item;
use std::cmp::Reverse;
use std::collections::BinaryHeap;
use std::io::{self, BufRead, BufReader, BufWriter, Write};
use std::process::ExitCode;
use std::sync::Mutex;

const BUFFER: usize = 1 << 16;

enum Refusal {
    Full,
    Empty,
    Closed,
}

struct State {
    items: BinaryHeap<Item<String>>,
    accepted: u64,
    is_closed: bool,
}

impl State {
    fn send(&mut self, capacity: usize, word: String, priority: i64) -> Result<(), Refusal> {
        if self.is_closed {
            return Err(Refusal::Closed);
        }
        if self.items.len() == capacity {
            return Err(Refusal::Full);
        }
        let place = (priority, Reverse(self.accepted));
        self.accepted += 1;
        self.items.push(Item { place, msg: word });
        Ok(())
    }
}

struct Channel {
    state: Mutex<State>,
    capacity: usize,
}

impl Channel {
    fn reserved(capacity: usize) -> Channel {
        let state = State {
            items: BinaryHeap::with_capacity(capacity),
            accepted: 0,
            is_closed: false,
        };
        Channel {
            state: Mutex::new(state),
            capacity,
        }
    }

    fn try_send(&self, word: String, priority: i64) -> Result<(), Refusal> {
        self.state
            .lock()
            .unwrap()
            .send(self.capacity, word, priority)
    }

    /// Sends pairs up to the first that is refused, and tells how many were not sent.
    fn try_sendv(&self, pairs: Vec<(String, i64)>) -> Result<(), (Refusal, usize)> {
        let mut state = self.state.lock().unwrap();
        let mut left = pairs.len();
        for (word, priority) in pairs {
            state
                .send(self.capacity, word, priority)
                .map_err(|refusal| (refusal, left))?;
            left -= 1;
        }
        Ok(())
    }

    fn try_recv(&self) -> Result<(String, i64), Refusal> {
        let mut state = self.state.lock().unwrap();
        match state.items.pop() {
            Some(item) => Ok((item.msg, item.place.0)),
            None if state.is_closed => Err(Refusal::Closed),
            None => Err(Refusal::Empty),
        }
    }

    fn close(&self) -> bool {
        let mut state = self.state.lock().unwrap();
        let was_open = !state.is_closed;
        state.is_closed = true;
        was_open
    }
}

enum Call<'a> {
    Send(i64, &'a str),
    Sendv(Vec<(String, i64)>),
    Recv,
    Close,
}

fn parse_opening(line: &[u8]) -> Option<usize> {
    let text = std::str::from_utf8(line).ok()?;
    text.strip_prefix("reserved ")?
        .parse()
        .ok()
        .filter(|capacity| *capacity > 0)
}

fn parse_call(line: &[u8]) -> Option<Call<'_>> {
    let text = std::str::from_utf8(line).ok()?;
    if let Some(pairs) = text.strip_prefix("sendv ") {
        return parse_pairs(pairs).map(Call::Sendv);
    }
    let mut fields = text.split(' ');
    match (fields.next(), fields.next(), fields.next(), fields.next()) {
        (Some("send"), Some(priority), Some(word), None) => {
            Some(Call::Send(parse_priority(priority)?, parse_word(word)?))
        }
        (Some("recv"), None, None, None) => Some(Call::Recv),
        (Some("close"), None, None, None) => Some(Call::Close),
        _ => None,
    }
}

fn parse_pairs(text: &str) -> Option<Vec<(String, i64)>> {
    let mut pairs = Vec::new();
    let mut fields = text.split(' ');
    while let Some(priority) = fields.next() {
        let word = parse_word(fields.next()?)?;
        pairs.push((word.to_string(), parse_priority(priority)?));
    }
    Some(pairs)
}

fn parse_word(field: &str) -> Option<&str> {
    let is_word = !field.is_empty() && field.bytes().all(|b| b.is_ascii_graphic());
    is_word.then_some(field)
}

fn parse_priority(field: &str) -> Option<i64> {
    let digits = field.strip_prefix('-').unwrap_or(field);
    if field != "0" && digits.starts_with('0') || digits.starts_with('+') {
        return None;
    }
    field.parse().ok()
}

fn not_a_call() -> io::Error {
    io::Error::other("not a call")
}

fn run() -> io::Result<()> {
    let mut input = BufReader::with_capacity(BUFFER, io::stdin().lock());
    let mut answers = BufWriter::with_capacity(BUFFER, io::stdout().lock());
    let mut line = Vec::new();
    let mut channel = None;
    loop {
        if input.buffer().is_empty() {
            answers.flush()?;
        }
        line.clear();
        if input.read_until(b'\n', &mut line)? == 0 {
            return answers.flush();
        }
        if line.last() == Some(&b'\n') {
            line.pop();
        }
        let Some(channel) = &channel else {
            let capacity = parse_opening(&line).ok_or_else(not_a_call)?;
            channel = Some(Channel::reserved(capacity));
            answers.write_all(b"ok\n")?;
            continue;
        };
        match parse_call(&line).ok_or_else(not_a_call)? {
            Call::Send(priority, word) => {
                let answer: &[u8] = match channel.try_send(word.to_string(), priority) {
                    Ok(()) => b"ok\n",
                    Err(Refusal::Full) => b"full\n",
                    Err(_) => b"closed\n",
                };
                answers.write_all(answer)?;
            }
            Call::Sendv(pairs) => match channel.try_sendv(pairs) {
                Ok(()) => answers.write_all(b"ok\n")?,
                Err((Refusal::Full, left)) => writeln!(answers, "full {left}")?,
                Err((_, left)) => writeln!(answers, "closed {left}")?,
            },
            Call::Recv => match channel.try_recv() {
                Ok((word, priority)) => writeln!(answers, "{word} {priority}")?,
                Err(Refusal::Empty) => answers.write_all(b"empty\n")?,
                Err(_) => answers.write_all(b"closed\n")?,
            },
            Call::Close => writeln!(answers, "{}", channel.close())?,
        }
    }
}

fn main() -> ExitCode {
    match run() {
        Ok(()) => ExitCode::SUCCESS,
        Err(error) => {
            eprintln!("{error}");
            ExitCode::FAILURE
        }
    }
}
