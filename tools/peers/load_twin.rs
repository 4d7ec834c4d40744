//! The load of docs/load.md, as a Rust engineer would write it who proves nothing: four ends with a queue each, messages that are encoded
//! and checked byte by byte, callbacks that wait for responses, and a history of all that was asked and told. It stands for what a user
//! would pick in place of `mojo load`, and prints the same line; behind it stand its seconds, by the clock, and its peak of memory.
//!
//!     rustc --edition 2021 -O -C target-cpu=x86-64-v2 -o /tmp/load_twin tools/peers/load_twin.rs && /tmp/load_twin SEED MESSAGES
use std::collections::{BTreeMap, BTreeSet, VecDeque};
use std::time::Instant;

const MAX_UNREAD: usize = 4096;

/// What a message says: the parameters of `Say`, those of its response, or those of `Note`.
#[derive(Clone)]
enum Body { Say { n: u32, s: String }, Said { n: u32 }, Note { b: Vec<u8> } }

#[derive(Clone, Copy, PartialEq)]
enum Side { Remote, Receiver }

/// The right to answer a request: the end that it came to, and its number there.
#[derive(Clone, Copy)]
struct Right { end: usize, request: u64 }

#[derive(Clone, Copy)]
enum Why { NoName, WrongSide, Full, Empty }

#[allow(dead_code)]
enum Asked { Join(u32), Bind(usize, Side), Call(usize, Body), Answer(Right, Body), Take(usize) }

#[allow(dead_code)]
enum Told { Made(usize, usize), Bound(usize), Sent(u64, Vec<u8>), Got { request: u64, body: Body, right: Option<Right> }, Bad(usize), No(Why) }

#[allow(dead_code)]
struct Event { seq: u32, asked: Asked, told: Told }

/// Whether the callback of a call ran.
struct Note { ran: bool }

/// An end: that at its other side, its side, the messages unread there, the number of its last request, the notes of the requests that
/// wait for a response, and the requests that it may answer.
struct End { peer: usize, side: Option<Side>, unread: VecDeque<Vec<u8>>, last: u64, waiting: BTreeMap<u64, usize>, owed: BTreeSet<u64> }

fn put32(out: &mut Vec<u8>, number: u32) { out.extend_from_slice(&number.to_le_bytes()); }
fn put64(out: &mut Vec<u8>, number: u64) { out.extend_from_slice(&number.to_le_bytes()); }
fn u32at(b: &[u8], at: usize) -> u32 { u32::from_le_bytes(b[at..at + 4].try_into().unwrap()) }
fn u64at(b: &[u8], at: usize) -> u64 { u64::from_le_bytes(b[at..at + 8].try_into().unwrap()) }

/// An array of bytes behind the pointer to it, which stands right before it.
fn put_array(out: &mut Vec<u8>, bytes: &[u8]) {
    put64(out, 8);
    put32(out, 8 + bytes.len() as u32);
    put32(out, bytes.len() as u32);
    out.extend_from_slice(bytes);
    out.resize(out.len().next_multiple_of(8), 0);
}

/// A message: the header, of version 1 where it has the number of a request, and the payload.
fn encode(body: &Body, request: u64) -> Vec<u8> {
    let (name, flags, length) = match body { Body::Say { s, .. } => (0, 1, s.len()), Body::Said { .. } => (0, 2, 0), Body::Note { b } => (1, 0, b.len()) };
    let mut out = Vec::with_capacity(32 + 24 + 16 + length);
    let (header, version) = if flags == 0 { (24, 0) } else { (32, 1) };
    for number in [header, version, 0, name, flags, 0] { put32(&mut out, number); }
    if version == 1 { put64(&mut out, request); }
    match body {
        Body::Say { n, s } => { for number in [24, 0, *n, 0] { put32(&mut out, number); } put_array(&mut out, s.as_bytes()); }
        Body::Said { n } => for number in [16, 0, *n, 0] { put32(&mut out, number); },
        Body::Note { b } => { for number in [16, 0] { put32(&mut out, number); } put_array(&mut out, b); }
    }
    out
}

/// The test of a struct of these bytes at a place.
fn check_struct(b: &[u8], at: usize, size: usize) -> Result<(), usize> {
    if b.len() < at + size || u32at(b, at) as usize != size || u32at(b, at + 4) != 0 { return Err(at); }
    Ok(())
}

/// The bytes of the array that the pointer at a place leads to, which is behind what was claimed so far.
fn array_at(b: &[u8], at: usize, claimed: usize) -> Result<&[u8], usize> {
    let distance = u64at(b, at);
    if distance == 0 || distance > u32::MAX as u64 { return Err(at); }
    let start = at + distance as usize;
    if start % 8 != 0 || start < claimed || start + 8 > b.len() { return Err(start); }
    let (size, count) = (u32at(b, start) as usize, u32at(b, start + 4) as usize);
    if size < 8 + count || start + size > b.len() { return Err(start); }
    Ok(&b[start + 8..start + 8 + count])
}

/// The number of a message's request, 0 where it has none, and what it says to an end of this side; or the place of its fault.
fn decode(b: &[u8], side: Side) -> Result<(u64, Body), usize> {
    if b.len() < 24 { return Err(0); }
    let (header, version, name, flags) = (u32at(b, 0) as usize, u32at(b, 4), u32at(b, 12), u32at(b, 16));
    if (header, version) != (24, 0) && (header, version) != (32, 1) || b.len() < header { return Err(0); }
    if u32at(b, 8) != 0 { return Err(8); }
    let request = if version == 1 { u64at(b, 24) } else { 0 };
    match (side, name, flags, version) {
        (Side::Receiver, 0, 1, 1) => {
            check_struct(b, header, 24)?;
            let bytes = array_at(b, header + 16, header + 24)?;
            let s = std::str::from_utf8(bytes).map_err(|error| header + 32 + error.valid_up_to())?.to_string();
            Ok((request, Body::Say { n: u32at(b, header + 8), s }))
        }
        (Side::Receiver, 1, 0, _) => { check_struct(b, header, 16)?; Ok((0, Body::Note { b: array_at(b, header + 8, header + 16)?.to_vec() })) }
        (Side::Remote, 0, 2, 1) => { check_struct(b, header, 16)?; Ok((request, Body::Said { n: u32at(b, header + 8) })) }
        _ => Err(12),
    }
}

#[derive(Default)]
struct Machine { ends: Vec<End>, history: Vec<Event>, notes: Vec<Note> }

impl Machine {
    fn note(&mut self, seq: u32, asked: Asked, told: Told) { self.history.push(Event { seq, asked, told }); }
    fn join(&mut self, seq: u32, other: u32) {
        let first = self.ends.len();
        for peer in [first + 1, first] {
            self.ends.push(End { peer, side: None, unread: VecDeque::new(), last: 0, waiting: BTreeMap::new(), owed: BTreeSet::new() });
        }
        self.note(seq, Asked::Join(other), Told::Made(first, first + 1));
    }
    fn bind(&mut self, end: usize, side: Side) {
        self.ends[end].side = Some(side);
        self.note(end as u32, Asked::Bind(end, side), Told::Bound(end));
    }
    /// Writes a message for reading at the other end: its bytes for the history, unless that end is full.
    fn write(&mut self, end: usize, body: &Body, request: u64) -> Result<Vec<u8>, Why> {
        let peer = self.ends[end].peer;
        if self.ends[peer].unread.len() >= MAX_UNREAD { return Err(Why::Full); }
        let bytes = encode(body, request);
        let noted = bytes.clone();
        self.ends[peer].unread.push_back(bytes);
        Ok(noted)
    }
    fn try_call(&mut self, end: usize, body: &Body) -> Result<(u64, Vec<u8>), Why> {
        if self.ends[end].side != Some(Side::Remote) { return Err(Why::WrongSide); }
        let request = if matches!(body, Body::Say { .. }) { self.ends[end].last + 1 } else { 0 };
        let bytes = self.write(end, body, request)?;
        if request != 0 {
            self.ends[end].last = request;
            self.ends[end].waiting.insert(request, self.notes.len());
            self.notes.push(Note { ran: false });
        }
        Ok((request, bytes))
    }
    fn call(&mut self, end: usize, body: Body) {
        let told = match self.try_call(end, &body) { Ok((request, bytes)) => Told::Sent(request, bytes), Err(why) => Told::No(why) };
        self.note(end as u32, Asked::Call(end, body), told);
    }
    fn answer(&mut self, right: Right, body: Body) {
        let told = if self.ends[right.end].owed.remove(&right.request) {
            match self.write(right.end, &body, right.request) { Ok(bytes) => Told::Sent(right.request, bytes), Err(why) => Told::No(why) }
        } else { Told::No(Why::NoName) };
        self.note(right.end as u32, Asked::Answer(right, body), told);
    }
    /// Takes the oldest message at an end: what is told of it. The callback runs that waited for it.
    fn try_take(&mut self, end: usize) -> Told {
        let Some(side) = self.ends[end].side else { return Told::No(Why::NoName) };
        let Some(bytes) = self.ends[end].unread.pop_front() else { return Told::No(Why::Empty) };
        let (request, body) = match decode(&bytes, side) { Ok(said) => said, Err(at) => return Told::Bad(at) };
        if let Body::Said { .. } = body {
            let Some(note) = self.ends[end].waiting.remove(&request) else { return Told::Bad(24) };
            self.notes[note].ran = true;
        }
        let right = matches!(body, Body::Say { .. }).then_some(Right { end, request });
        if right.is_some() { self.ends[end].owed.insert(request); }
        Told::Got { request, body, right }
    }
    /// The same, noted: what came, and the right to answer it.
    fn take(&mut self, end: usize) -> Option<(Body, Option<Right>)> {
        let told = self.try_take(end);
        let came = match &told { Told::Got { body, right, .. } => Some((body.clone(), *right)), _ => None };
        self.note(end as u32, Asked::Take(end), told);
        came
    }
}

/// Sends a message of this number, for which this was drawn, over its pair, and has it taken, answered, and the response taken.
fn send(machine: &mut Machine, number: u32, drawn: u32) {
    let caller = 2 * (drawn % 2) as usize;
    let is_say = drawn / 2 % 2 == 0;
    let body = if is_say { Body::Say { n: number, s: "x".repeat((drawn / 4 % 32) as usize) } }
        else { Body::Note { b: vec![number as u8; (drawn / 4 % 64) as usize] } };
    machine.call(caller, body);
    if let Some((Body::Say { n, .. }, Some(right))) = machine.take(caller + 1) {
        machine.answer(right, Body::Said { n });
        machine.take(caller);
    }
}

fn main() {
    let begun = Instant::now();
    let words: Vec<u64> = std::env::args().skip(1).map(|word| word.parse().expect("SEED MESSAGES")).collect();
    let (mut drawn, messages) = (words[0], words[1] as u32);
    let mut machine = Machine::default();
    for seq in [0, 2] { machine.join(seq, seq + 1); }
    for (end, side) in [(0, Side::Remote), (2, Side::Remote), (1, Side::Receiver), (3, Side::Receiver)] { machine.bind(end, side); }
    for number in 0..messages {
        drawn = drawn.wrapping_mul(6364136223846793005).wrapping_add(1442695040888963407);
        send(&mut machine, number, (drawn >> 32) as u32);
    }
    let events = &machine.history;
    let sent = events.iter().filter(|event| matches!(event.told, Told::Sent(..))).count();
    let got = events.iter().filter(|event| matches!(event.told, Told::Got { .. })).count();
    let bytes: usize = events.iter().map(|event| if let Told::Sent(_, bytes) = &event.told { bytes.len() } else { 0 }).sum();
    let ran = machine.notes.iter().filter(|note| note.ran).count();
    println!("events {} sent {sent} got {got} ran {ran} bytes {bytes}", events.len());
    drop(machine);
    let status = std::fs::read_to_string("/proc/self/status").unwrap_or_default();
    let peak = status.lines().find_map(|line| line.strip_prefix("VmHWM:")).unwrap_or("?").trim();
    println!("unverified twin: {:.2} s, peak of memory {peak}", begun.elapsed().as_secs_f64());
}
