// A plain reader of packets, frames and streams in ordinary Rust. It writes the rows of
// `crates/site_calls/data/changed.rows`: one for a payload of each kind, and one for a stream. Its
// number sums up what is answered where that is cut or changed at each byte.
// rustc --edition 2021 -O bench/changed_bytes.rs -o changed_bytes && ./changed_bytes
#![allow(dead_code)]

use std::collections::{HashMap, VecDeque};

const TOP: u64 = i64::MAX as u64;

// ---- what is sent

#[derive(Clone, Copy)]
enum Name {
    Mine { serial: u64, class: u32 },
    Yours { serial: u64 },
    Lent { port: u16, serial: u64, class: u32, token: u64 },
}

enum Part {
    Nil,
    Num(i64),
    Text(Vec<u8>),
    Copy(u64),
    Named(u64),
    List(Vec<Part>),
}

struct Copied {
    class: u32,
    slots: Vec<Part>,
}

struct Packet {
    names: Vec<Name>,
    copies: Vec<Copied>,
    values: Vec<Part>,
}

enum Exc {
    Plain(u64),
    User(Vec<u8>),
}

struct Token {
    port: u16,
    number: u64,
}

enum Frame {
    Call { call: u64, serial: u64, selector: Vec<u8>, packet: Packet },
    Oneway { serial: u64, selector: Vec<u8>, packet: Packet },
    Reply { call: u64, packet: Packet },
    Raised { call: u64, exc: Exc },
    RootAsk { call: u64 },
    RootAnswer { call: u64, packet: Packet },
    Held { kind: u8, serial: u64, token: Token },
    Release { serial: u64, amount: u64 },
    Settle { number: u64 },
    Shutdown,
}

// ---- the table of recent names

#[derive(Default, Clone)]
struct Recent {
    pairs: VecDeque<(u64, u32)>,
    places: HashMap<(u64, u32), u64>,
    first: u64,
    journal: Vec<Option<(u64, u32)>>,
}

impl Recent {
    fn place(&self, pair: (u64, u32)) -> Option<u64> {
        self.places.get(&pair).map(|place| place - self.first)
    }

    fn add(&mut self, pair: (u64, u32)) {
        self.places.insert(pair, self.first + self.pairs.len() as u64);
        self.pairs.push_back(pair);
        let mut gone = None;
        if self.pairs.len() > 256 {
            gone = self.pairs.pop_front();
            self.first += 1;
            self.places.remove(&gone.unwrap());
        }
        self.journal.push(gone);
    }

    fn keep(&mut self) {
        self.journal.clear();
    }

    fn undo(&mut self) {
        while let Some(gone) = self.journal.pop() {
            let added = self.pairs.pop_back().unwrap();
            self.places.remove(&added);
            if let Some(pair) = gone {
                self.first -= 1;
                self.pairs.push_front(pair);
                self.places.insert(pair, self.first);
            }
        }
    }
}

// ---- reading

enum Stop {
    Short,
    Bad(usize),
}

struct Bytes<'a> {
    bytes: &'a [u8],
    at: usize,
}

/// Whether some number from one to another is none of the holes.
fn some_free(low: u128, high: u128, holes: &[u64]) -> bool {
    let mut x = low;
    while x <= high && holes.iter().any(|hole| u128::from(*hole) == x) {
        x += 1;
    }
    x <= high
}

impl Bytes<'_> {
    /// A byte that passes a test.
    fn tag(&mut self, test: impl Fn(u8) -> bool) -> Result<u8, Stop> {
        let byte = *self.bytes.get(self.at).ok_or(Stop::Short)?;
        if !test(byte) {
            return Err(Stop::Bad(self.at));
        }
        self.at += 1;
        Ok(byte)
    }

    /// A number that is read without a look at where it goes wrong.
    fn fast_num(&mut self, low: u64, high: u64) -> Option<u64> {
        let count = *self.bytes.get(self.at)? as usize;
        if count > 8 {
            return None;
        }
        let digits = self.bytes.get(self.at + 1..self.at + 1 + count)?;
        let mut x = 0;
        for digit in digits {
            x = x << 8 | u64::from(*digit);
        }
        if digits.first() == Some(&0) || x < low || x > high {
            return None;
        }
        self.at += 1 + count;
        Some(x)
    }

    /// A number between two bounds that is none of the holes, byte by byte.
    fn slow_num(&mut self, low: u64, high: u64, holes: &[u64]) -> Result<u64, Stop> {
        let (low, high) = (u128::from(low), u128::from(high));
        let least = |count: u8| if count == 0 { 0 } else { 1u128 << (8 * (count - 1)) };
        let count = self.tag(|count| {
            count <= 8
                && some_free(low.max(least(count)), high.min((1u128 << (8 * count)) - 1), holes)
        })?;
        let low = low.max(least(count));
        let mut x = 0u128;
        for left in (0..count).rev() {
            let step = 1u128 << (8 * left);
            let from = x << 8;
            let byte = self.tag(|byte| {
                let first = (from + u128::from(byte)) * step;
                some_free(low.max(first), high.min(first + step - 1), holes)
            })?;
            x = from + u128::from(byte);
        }
        Ok(x as u64)
    }

    fn num(&mut self, low: u64, high: u64) -> Result<u64, Stop> {
        match self.fast_num(low, high) {
            Some(x) => Ok(x),
            None => self.slow_num(low, high, &[]),
        }
    }

    fn serial(&mut self) -> Result<u64, Stop> {
        self.num(1, TOP)
    }

    fn text(&mut self, most: u64) -> Result<Vec<u8>, Stop> {
        let length = self.num(0, most)? as usize;
        let text = self.bytes.get(self.at..self.at + length).ok_or(Stop::Short)?;
        self.at += length;
        Ok(text.to_vec())
    }

    fn selector(&mut self) -> Result<Vec<u8>, Stop> {
        let length = self.num(1, 255)?;
        let start = self.at;
        let mut colons = 0;
        for k in 0..length {
            let last = k + 1 == length;
            let byte = self.tag(|byte| match byte {
                b'_' | b'a'..=b'z' | b'A'..=b'Z' => !last || colons == 0,
                b'0'..=b'9' => k > 0 && (!last || colons == 0),
                b':' => k > 0 && (last || colons < 7),
                _ => false,
            })?;
            colons += usize::from(byte == b':');
        }
        Ok(self.bytes[start..self.at].to_vec())
    }

    fn part(&mut self, copies: u64, names: u64, depth: u8) -> Result<Part, Stop> {
        let tag = self.tag(|tag| match tag {
            0..=2 => true,
            3 => copies > 0,
            4 => names > 0,
            5 => depth > 0,
            _ => false,
        })?;
        Ok(match tag {
            0 => Part::Nil,
            1 => {
                let x = self.num(0, u64::MAX)?;
                Part::Num((x >> 1) as i64 ^ -((x & 1) as i64))
            }
            2 => Part::Text(self.text(1_048_575)?),
            3 => Part::Copy(self.num(0, copies - 1)?),
            4 => Part::Named(self.num(0, names - 1)?),
            _ => {
                let count = self.num(0, 1_024)?;
                Part::List(self.parts(count, copies, names, depth - 1)?)
            }
        })
    }

    fn parts(&mut self, count: u64, copies: u64, names: u64, depth: u8) -> Result<Vec<Part>, Stop> {
        let mut parts = Vec::new();
        for _ in 0..count {
            parts.push(self.part(copies, names, depth)?);
        }
        Ok(parts)
    }

    /// An object that the table does not have.
    fn new_pair(&mut self, classes: u64, recent: &Recent) -> Result<(u64, u32), Stop> {
        let start = self.at;
        if let Some(serial) = self.fast_num(1, TOP) {
            if let Some(class) = self.fast_num(0, classes - 1) {
                let pair = (serial, class as u32);
                if recent.place(pair).is_none() {
                    return Ok(pair);
                }
            }
        }
        self.at = start;
        let taken = |serial: u64| -> Vec<u64> {
            let pairs = recent.pairs.iter().filter(|pair| pair.0 == serial);
            pairs.map(|pair| u64::from(pair.1)).collect()
        };
        let serials = recent.pairs.iter().map(|pair| pair.0);
        let whole: Vec<u64> = serials
            .filter(|serial| !some_free(0, u128::from(classes - 1), &taken(*serial)))
            .collect();
        let serial = self.slow_num(1, TOP, &whole)?;
        let class = self.slow_num(0, classes - 1, &taken(serial))?;
        Ok((serial, class as u32))
    }

    fn name(&mut self, world: &World, recent: &mut Recent) -> Result<Name, Stop> {
        let classes = world.slots.len() as u64;
        let known = recent.pairs.len() as u64;
        let tag = self.tag(|tag| match tag {
            1 | 3 => classes > 0,
            2 => true,
            4 => known > 0,
            _ => false,
        })?;
        Ok(match tag {
            1 => {
                let (serial, class) = self.new_pair(classes, recent)?;
                recent.add((serial, class));
                Name::Mine { serial, class }
            }
            2 => Name::Yours { serial: self.serial()? },
            3 => {
                let holes = [u64::from(world.from), u64::from(world.to)];
                let port = self.slow_num(1, 65_535, &holes)? as u16;
                let serial = self.serial()?;
                let class = self.num(0, classes - 1)? as u32;
                let token = self.serial()?;
                Name::Lent { port, serial, class, token }
            }
            _ => {
                let (serial, class) = recent.pairs[self.num(0, known - 1)? as usize];
                Name::Mine { serial, class }
            }
        })
    }

    fn packet(&mut self, world: &World, recent: &mut Recent) -> Result<Packet, Stop> {
        let mut names = Vec::new();
        for _ in 0..self.num(0, 65_536)? {
            names.push(self.name(world, recent)?);
        }
        let most = if world.slots.is_empty() { 0 } else { 4_096 };
        let count = self.num(0, most)?;
        let mut copies = Vec::new();
        for _ in 0..count {
            let class = self.num(0, world.slots.len() as u64 - 1)? as u32;
            let slots = world.slots[class as usize];
            self.num(slots, slots)?;
            let slots = self.parts(slots, count, names.len() as u64, 8)?;
            copies.push(Copied { class, slots });
        }
        let values = self.num(0, 9)?;
        let values = self.parts(values, count, names.len() as u64, 8)?;
        Ok(Packet { names, copies, values })
    }

    fn frame(&mut self, kind: u8, world: &World, recent: &mut Recent) -> Result<Frame, Stop> {
        Ok(match kind {
            1 => Frame::Call {
                call: self.serial()?,
                serial: self.serial()?,
                selector: self.selector()?,
                packet: self.packet(world, recent)?,
            },
            2 => Frame::Oneway {
                serial: self.serial()?,
                selector: self.selector()?,
                packet: self.packet(world, recent)?,
            },
            3 => Frame::Reply { call: self.serial()?, packet: self.packet(world, recent)? },
            4 => {
                let call = self.serial()?;
                let exc = match self.num(1, 9)? {
                    8 => Exc::User(self.text(1_048_575)?),
                    number => Exc::Plain(number),
                };
                Frame::Raised { call, exc }
            }
            5 => Frame::RootAsk { call: self.serial()? },
            6 => Frame::RootAnswer { call: self.serial()?, packet: self.packet(world, recent)? },
            7..=9 => {
                let serial = self.serial()?;
                let port = self.num(1, 65_535)? as u16;
                Frame::Held { kind, serial, token: Token { port, number: self.serial()? } }
            }
            10 => Frame::Release { serial: self.serial()?, amount: self.serial()? },
            11 => Frame::Settle { number: self.serial()? },
            12 => Frame::Shutdown,
            _ => return Err(Stop::Bad(0)),
        })
    }
}

/// How many slots each class has, and the ports of sender and receiver.
struct World {
    slots: Vec<u64>,
    from: u16,
    to: u16,
}

/// The frame that a whole payload spells, or the place at which it spells none.
fn read_raw(world: &World, recent: &mut Recent, kind: u8, payload: &[u8]) -> Result<Frame, usize> {
    let mut bytes = Bytes { bytes: payload, at: 0 };
    let read = match bytes.frame(kind, world, recent) {
        Ok(frame) if bytes.at == payload.len() => Ok(frame),
        Ok(_) => Err(bytes.at),
        Err(Stop::Short) => Err(payload.len()),
        Err(Stop::Bad(place)) => Err(place),
    };
    match read {
        Ok(_) => recent.keep(),
        Err(_) => recent.undo(),
    }
    read
}

// ---- streams

#[derive(Clone, Copy)]
enum StreamFault {
    Kind(u64),
    Length(u64),
    Version(u8),
}

#[derive(Default)]
struct Reader {
    bytes: Vec<u8>,
    start: usize,
    place: u64,
    greeted: bool,
    fault: Option<StreamFault>,
}

impl Reader {
    fn feed(&mut self, piece: &[u8]) {
        if self.start > 0 && self.start * 2 >= self.bytes.len() {
            self.bytes.drain(..self.start);
            self.start = 0;
        }
        self.bytes.extend_from_slice(piece);
    }

    /// The next kind and payload.
    fn next(&mut self) -> Result<Option<(u8, &[u8])>, StreamFault> {
        if let Some(fault) = self.fault {
            return Err(fault);
        }
        match self.look() {
            Err(fault) => {
                self.fault = Some(fault);
                Err(fault)
            }
            Ok(None) => Ok(None),
            Ok(Some((kind, length))) => {
                let front = if self.greeted { 5 } else { 11 };
                let begin = self.start + front;
                self.start = begin + length;
                self.place += (front + length) as u64;
                self.greeted = true;
                Ok(Some((kind, &self.bytes[begin..begin + length])))
            }
        }
    }

    fn look(&self) -> Result<Option<(u8, usize)>, StreamFault> {
        let mut rest = &self.bytes[self.start..];
        let mut place = self.place;
        if !self.greeted {
            for (at, byte) in [13, 0, 0, 0, 1, 2].iter().enumerate() {
                match rest.first() {
                    None => return Ok(None),
                    Some(found) if found == byte => rest = &rest[1..],
                    Some(_) if at == 0 => return Err(StreamFault::Kind(0)),
                    Some(found) if at == 5 => return Err(StreamFault::Version(*found)),
                    Some(_) => return Err(StreamFault::Length(1)),
                }
            }
            place += 6;
        }
        let Some((kind, rest)) = rest.split_first() else {
            return Ok(None);
        };
        if !(1..=12).contains(kind) {
            return Err(StreamFault::Kind(place));
        }
        let mut length = 0u64;
        for k in 0..4 {
            let Some(byte) = rest.get(k) else {
                return Ok(None);
            };
            length = length << 8 | u64::from(*byte);
            if length << (8 * (3 - k)) > 2_098_176 {
                return Err(StreamFault::Length(place + 1));
            }
        }
        if rest.len() - 4 < length as usize {
            return Ok(None);
        }
        Ok(Some((*kind, length as usize)))
    }
}

// ---- what is answered to cut and changed bytes

/// The sender's objects 5 and 6 of class 0.
const KNOWN: [u8; 12] = [1, 2, 1, 1, 5, 0, 1, 1, 6, 0, 0, 0];

const CALL: [u8; 60] = [
    1, 2, 1, 1, 1, 8, 97, 100, 100, 58, 97, 110, 100, 58, 1, 3, 1, 2, 1, 44, 0, 2, 1, 7, 3, 2, 27,
    91, 1, 1, 0, 1, 9, 1, 1, 0, 1, 2, 1, 1, 1, 2, 1, 2, 97, 98, 1, 4, 0, 3, 0, 4, 1, 2, 5, 1, 1, 1,
    1, 128,
];

const ONEWAY: [u8; 19] = [1, 9, 1, 3, 103, 111, 58, 1, 2, 4, 1, 1, 1, 1, 7, 1, 1, 0, 0];

const REPLY: [u8; 22] = [1, 2, 0, 0, 1, 2, 5, 1, 1, 5, 1, 1, 5, 1, 1, 1, 1, 10, 2, 1, 1, 120];

const RAISED: [u8; 8] = [1, 2, 1, 8, 1, 2, 104, 105];

const ROOT_ASK: [u8; 3] = [2, 1, 0];

const ROOT_ANSWER: [u8; 13] = [1, 1, 1, 1, 1, 1, 9, 0, 0, 1, 1, 4, 0];

const TOKEN: [u8; 8] = [1, 5, 2, 27, 91, 2, 1, 0];

const RELEASE: [u8; 5] = [1, 1, 2, 3, 232];

const SETTLE: [u8; 2] = [1, 9];

const STREAM: [u8; 20] = [13, 0, 0, 0, 1, 2, 10, 0, 0, 0, 4, 1, 1, 1, 3, 12, 0, 0, 0, 0];

fn with_answer(sum: u64, answer: u64) -> u64 {
    (sum ^ answer).wrapping_mul(1_099_511_628_211)
}

/// The bytes cut at each place, and with each byte at each place.
fn variants(bytes: &[u8]) -> impl Iterator<Item = Vec<u8>> + '_ {
    let cut = (0..=bytes.len()).map(|end| bytes[..end].to_vec());
    let changed = (0..bytes.len()).flat_map(move |at| {
        (0..=255).map(move |value| {
            let mut changed = bytes.to_vec();
            changed[at] = value;
            changed
        })
    });
    cut.chain(changed)
}

/// The bytes of a text as rows write them.
fn quoted(bytes: &[u8]) -> String {
    let mut text = String::new();
    for byte in bytes {
        match byte {
            b'"' | b'\\' => text.push_str(&format!("\\{byte:02x}")),
            b' '..=b'~' => text.push(*byte as char),
            _ => text.push_str(&format!("\\{byte:02x}")),
        }
    }
    text
}

/// The sum of the answers to a payload of a kind that is cut or changed.
fn payload_sum(world: &World, known: &Recent, kind: u8, payload: &[u8]) -> u64 {
    let mut sum = 14_695_981_039_346_656_037;
    for bytes in variants(payload) {
        let mut recent = known.clone();
        sum = with_answer(sum, match read_raw(world, &mut recent, kind, &bytes) {
            Ok(_) => 1_000_000 + recent.pairs.len() as u64,
            Err(place) => place as u64,
        });
    }
    sum
}

/// The rows of payloads, for a reader with one class of two slots that knows two objects.
fn payload_rows() {
    let world = World { slots: vec![2], from: 1, to: 3 };
    let mut known = Recent::default();
    assert!(Bytes { bytes: &KNOWN, at: 0 }.packet(&world, &mut known).is_ok());
    known.keep();
    println!("begin 2\ndecode \"{}\" = {}", quoted(&KNOWN), KNOWN.len());
    let samples: [(u8, &[u8]); 14] = [
        (1, &CALL),
        (2, &ONEWAY),
        (3, &REPLY),
        (6, &ROOT_ANSWER),
        (4, &RAISED),
        (5, &ROOT_ASK),
        (7, &TOKEN),
        (8, &TOKEN),
        (9, &TOKEN),
        (10, &RELEASE),
        (11, &SETTLE),
        (12, &SETTLE),
        (0, &SETTLE),
        (13, &SETTLE),
    ];
    for (kind, payload) in samples {
        let sum = payload_sum(&world, &known, kind, payload);
        println!("changes {kind} \"{}\" = \"{sum}\"", quoted(payload));
    }
}

fn all_streams() -> u64 {
    let mut sum = 14_695_981_039_346_656_037;
    for bytes in variants(&STREAM) {
        let mut reader = Reader::default();
        reader.feed(&bytes);
        for _ in 0..4 {
            sum = with_answer(sum, match reader.next() {
                Ok(None) => 0,
                Ok(Some((kind, payload))) => 1_000 * u64::from(kind) + payload.len() as u64,
                Err(StreamFault::Kind(place)) => 100_000 + place,
                Err(StreamFault::Length(place)) => 200_000 + place,
                Err(StreamFault::Version(version)) => 300_000 + u64::from(version),
            });
        }
    }
    sum
}

fn main() {
    payload_rows();
    println!("changed_stream \"{}\" = \"{}\"", quoted(&STREAM), all_streams());
}
