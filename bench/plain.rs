//! The same operations as a Rust programmer would write them by hand for speed, with the standard library and a simple
//! hash: a message is judged where it lies, and nothing is unsafe.

use crate::base::{rule_of, u24, u32_at, verdict_mark, mark_of, AvpRef, Failed, Fault, Kind, Rule, AVPS, MOST};
use std::collections::HashMap;
use std::hash::{BuildHasherDefault, Hasher};
use std::hint::black_box;

/// A hash of few steps, as compilers use it.
#[derive(Default)]
pub struct Simple(u64);

impl Hasher for Simple {
    fn finish(&self) -> u64 {
        self.0
    }

    fn write(&mut self, octets: &[u8]) {
        octets.iter().for_each(|octet| self.write_u32(u32::from(*octet)));
    }

    fn write_u32(&mut self, number: u32) {
        self.0 = (self.0.rotate_left(5) ^ u64::from(number)).wrapping_mul(0x517c_c1b7_2722_0a95);
    }
}

pub struct Avp {
    pub code: u32,
    pub vendor: Option<u32>,
    pub mandatory: bool,
    pub protected: bool,
    pub data: Vec<u8>,
}

pub struct Message {
    pub flags: u8,
    pub command: u32,
    pub application: u32,
    pub hop: u32,
    pub end: u32,
    pub avps: Vec<Avp>,
}

/// The first AVP of octets, and its octets with padding.
pub fn first(octets: &[u8]) -> Option<(AvpRef<'_>, usize)> {
    if octets.len() < 8 {
        return None;
    }
    let (code, flags, length) = (u32_at(octets), octets[4], u24(&octets[5..]));
    let (vendor, header) = if flags & 0x80 == 0 {
        (None, 8)
    } else if octets.len() < 12 {
        return None;
    } else {
        (Some(u32_at(&octets[8..])), 12)
    };
    let size = length.next_multiple_of(4);
    if length < header || size > octets.len() {
        return None;
    }
    Some((AvpRef { code, vendor, flags, data: &octets[header..length] }, size))
}

/// The AVPs one after the other, up to the first octets that are none.
#[derive(Clone)]
struct Avps<'a>(&'a [u8]);

impl<'a> Iterator for Avps<'a> {
    type Item = AvpRef<'a>;

    fn next(&mut self) -> Option<AvpRef<'a>> {
        let (avp, size) = first(self.0)?;
        self.0 = &self.0[size..];
        Some(avp)
    }
}

/// Whether octets are AVPs one after the other.
fn are_avps(octets: &[u8]) -> bool {
    let mut avps = Avps(octets);
    avps.by_ref().for_each(drop);
    avps.0.is_empty()
}

fn is_header(octets: &[u8]) -> bool {
    octets.len() >= 20 && octets[0] == 1 && u24(&octets[1..]) == octets.len() && octets.len() % 4 == 0
}

fn walk(octets: &[u8]) -> usize {
    Avps(&octets[20..]).map(|avp| avp.code as usize + avp.data.len()).sum()
}

pub fn decode(octets: &[u8]) -> Option<Message> {
    if !is_header(octets) {
        return None;
    }
    let (mut rest, mut avps) = (Avps(&octets[20..]), Vec::new());
    for avp in rest.by_ref() {
        let (mandatory, protected) = (avp.flags & 0x40 != 0, avp.flags & 0x20 != 0);
        avps.push(Avp { code: avp.code, vendor: avp.vendor, mandatory, protected, data: avp.data.to_vec() });
    }
    if !rest.0.is_empty() {
        return None;
    }
    Some(Message {
        flags: octets[4] & 0xf0,
        command: u24(&octets[5..]) as u32,
        application: u32_at(&octets[8..]),
        hop: u32_at(&octets[12..]),
        end: u32_at(&octets[16..]),
        avps,
    })
}

pub fn encode(message: &Message) -> Option<Vec<u8>> {
    let lengths = message.avps.iter().map(|avp| 8 + 4 * usize::from(avp.vendor.is_some()) + avp.data.len());
    let size = 20 + lengths.map(|length| length.next_multiple_of(4)).sum::<usize>();
    if size > 16777212 || message.command > 16777215 {
        return None;
    }
    let mut octets = Vec::with_capacity(size);
    let mut header = [0; 20];
    header[..4].copy_from_slice(&(0x0100_0000 + size as u32).to_be_bytes());
    header[4..8].copy_from_slice(&(u32::from(message.flags) << 24 | message.command).to_be_bytes());
    header[8..12].copy_from_slice(&message.application.to_be_bytes());
    header[12..16].copy_from_slice(&message.hop.to_be_bytes());
    header[16..].copy_from_slice(&message.end.to_be_bytes());
    octets.extend_from_slice(&header);
    for avp in &message.avps {
        let flags = u32::from(avp.mandatory) << 30 | u32::from(avp.protected) << 29;
        let length = avp.data.len() as u32;
        let mut head = [0; 12];
        head[..4].copy_from_slice(&avp.code.to_be_bytes());
        match avp.vendor {
            None => {
                head[4..8].copy_from_slice(&(flags | (8 + length)).to_be_bytes());
                octets.extend_from_slice(&head[..8]);
            }
            Some(vendor) => {
                head[4..8].copy_from_slice(&(1 << 31 | flags | (12 + length)).to_be_bytes());
                head[8..].copy_from_slice(&vendor.to_be_bytes());
                octets.extend_from_slice(&head);
            }
        }
        octets.extend_from_slice(&avp.data);
        octets.extend_from_slice(&[0; 3][..avp.data.len().wrapping_neg() % 4]);
    }
    Some(octets)
}

pub struct Dictionary {
    avps: HashMap<u32, Kind, BuildHasherDefault<Simple>>,
}

/// The least number of octets that a value has.
fn least(kind: Kind) -> u32 {
    match kind {
        Kind::Octets | Kind::Text | Kind::Group(_) | Kind::Failed => 0,
        Kind::Four => 4,
        Kind::Address => 2,
        Kind::Identity => 1,
        Kind::Uri => 7,
    }
}

/// The Result-Code of data that is no value.
fn value_fault(kind: Kind, data: &[u8]) -> Option<u32> {
    let is_visible = |octets: &[u8]| octets.iter().all(|octet| (0x21..0x7f).contains(octet));
    let is_good = match kind {
        _ if data.len() < least(kind) as usize => return Some(5014),
        Kind::Four if data.len() != 4 => return Some(5014),
        Kind::Octets | Kind::Four | Kind::Group(_) | Kind::Failed => true,
        Kind::Address => match data {
            [0, 1, rest @ ..] => rest.len() == 4,
            [0, 2, rest @ ..] => rest.len() == 16,
            _ => true,
        },
        Kind::Text => std::str::from_utf8(data).is_ok(),
        Kind::Identity => is_visible(data),
        Kind::Uri => {
            let rest = data.strip_prefix(b"aaas://").or(data.strip_prefix(b"aaa://"));
            rest.is_some_and(|rest| !rest.is_empty() && is_visible(rest))
        }
    };
    if is_good { None } else { Some(5004) }
}

impl Dictionary {
    pub fn base() -> Dictionary {
        Dictionary { avps: AVPS.into_iter().collect() }
    }

    fn kind_of(&self, avp: &AvpRef<'_>) -> Option<Kind> {
        if avp.vendor.is_some() { None } else { self.avps.get(&avp.code).copied() }
    }

    /// The place of an AVP in the rule; the last entry may be for all others.
    fn place(avp: &AvpRef<'_>, rule: Rule) -> Option<usize> {
        let own = if avp.vendor.is_none() { rule.iter().position(|entry| entry.code == avp.code) } else { None };
        own.or(if rule.last().is_some_and(|entry| entry.code == 0) { Some(rule.len() - 1) } else { None })
    }

    fn avp<'a>(&self, avp: AvpRef<'a>, place: Option<usize>, depth: u32) -> Result<(), Fault<'a>> {
        let fault = |code| Err(Fault { code, failed: Failed::Found(avp) });
        let Some(kind) = self.kind_of(&avp) else {
            return if avp.flags & 0x40 == 0 { Ok(()) } else { fault(5001) };
        };
        if place.is_none() {
            return fault(5008);
        }
        if let Kind::Group(rule) = kind {
            if depth == 8 {
                return fault(5004);
            }
            if !are_avps(avp.data) {
                return Err(Fault { code: 5014, failed: Failed::Found(AvpRef { data: &[], ..avp }) });
            }
            return self.list(Avps(avp.data), rule, depth + 1);
        }
        value_fault(kind, avp.data).map_or(Ok(()), fault)
    }

    fn list<'a>(
        &self,
        avps: impl Iterator<Item = AvpRef<'a>> + Clone,
        rule: Rule,
        depth: u32,
    ) -> Result<(), Fault<'a>> {
        let mut counts = [0u32; MOST];
        for avp in avps.clone() {
            let place = Self::place(&avp, rule);
            self.avp(avp, place, depth)?;
            if let Some(place) = place {
                counts[place] += 1;
            }
        }
        for (place, (entry, count)) in rule.iter().zip(counts).enumerate() {
            if count < entry.least {
                let zeros = self.avps.get(&entry.code).map_or(0, |kind| least(*kind));
                return Err(Fault { code: 5005, failed: Failed::Example { code: entry.code, zeros } });
            }
            if count > entry.most {
                let mut held = avps.filter(|avp| Self::place(avp, rule) == Some(place));
                return Err(Fault { code: 5009, failed: Failed::Found(held.nth(entry.most as usize).unwrap()) });
            }
        }
        Ok(())
    }

    /// What is found first of a message where it lies. None where it is no message.
    pub fn judge<'a>(&self, octets: &'a [u8]) -> Option<Result<(), Fault<'a>>> {
        if !is_header(octets) || !are_avps(&octets[20..]) {
            return None;
        }
        Some(match rule_of(octets[4], u24(&octets[5..]) as u32) {
            Ok(rule) => self.list(Avps(&octets[20..]), rule, 0),
            Err(code) => Err(Fault { code, failed: Failed::Nothing }),
        })
    }

    pub fn check<'a>(&self, message: &'a Message) -> Result<(), Fault<'a>> {
        let borrowed = |avp: &'a Avp| {
            let flags = u8::from(avp.vendor.is_some()) << 7 | u8::from(avp.mandatory) << 6;
            AvpRef { code: avp.code, vendor: avp.vendor, flags, data: &avp.data[..] }
        };
        match rule_of(message.flags, message.command) {
            Ok(rule) => self.list(message.avps.iter().map(borrowed), rule, 0),
            Err(code) => Err(Fault { code, failed: Failed::Nothing }),
        }
    }
}

/// The octets fed, those in front of `taken` handed out.
struct Framer {
    buffer: Vec<u8>,
    taken: usize,
    max: usize,
}

impl Framer {
    fn feed(&mut self, piece: &[u8]) {
        if self.taken >= self.buffer.len() - self.taken {
            self.buffer.drain(..self.taken);
            self.taken = 0;
        }
        self.buffer.extend_from_slice(piece);
    }

    fn next(&mut self) -> Result<Option<Vec<u8>>, ()> {
        let rest = &self.buffer[self.taken..];
        if rest.first().is_some_and(|version| *version != 1) {
            return Err(());
        }
        if rest.len() < 4 {
            return Ok(None);
        }
        let size = u24(&rest[1..]);
        if size < 20 || size % 4 != 0 || size > self.max {
            return Err(());
        }
        if rest.len() < size {
            return Ok(None);
        }
        self.taken += size;
        Ok(Some(rest[..size].to_vec()))
    }
}

fn frame(framer: &mut Framer, octets: &[u8], size: usize) -> usize {
    let mut sum = 0;
    for piece in octets.chunks(size) {
        framer.feed(piece);
        while let Ok(Some(message)) = framer.next() {
            sum += message.len();
            black_box(message);
        }
    }
    sum
}

/// A number that another message would change.
pub fn message_mark(message: Option<Message>) -> usize {
    message.map_or(0, |message| {
        let marks = message.avps.iter().map(|avp| mark_of(avp.code, avp.vendor, &avp.data));
        (message.flags as usize + message.command as usize + message.application as usize)
            + (message.hop as usize + message.end as usize)
            + marks.sum::<usize>()
    })
}

/// A number that other octets would most likely change.
pub fn octets_mark(octets: Option<Vec<u8>>) -> usize {
    octets.map_or(0, |octets| octets.len() + octets[octets.len() - 5] as usize + octets[octets.len() / 2] as usize)
}

pub fn run(operation: &str, octets: &[u8], times: u32, size: usize) -> usize {
    let dictionary = Dictionary::base();
    match operation {
        "walk" => (0..times).map(|_| walk(black_box(octets))).sum(),
        // (hold: the same sum of a message that ours holds in one block)
        "decode" | "hold" => (0..times).map(|_| message_mark(black_box(decode(black_box(octets))))).sum(),
        "check" => decode(octets).map_or(0, |message| {
            (0..times).map(|_| verdict_mark(&dictionary.check(black_box(&message)))).sum()
        }),
        "judge" => {
            let mark = |octets| dictionary.judge(octets).map_or(0, |verdict| verdict_mark(&verdict));
            (0..times).map(|_| mark(black_box(octets))).sum()
        }
        "encode" => decode(octets).map_or(0, |message| {
            (0..times).map(|_| octets_mark(black_box(encode(black_box(&message))))).sum()
        }),
        "frame" => {
            let mut framer = Framer { buffer: Vec::new(), taken: 0, max: 16777212 };
            (0..times).map(|_| frame(&mut framer, octets, size)).sum()
        }
        _ => panic!("no operation {operation}"),
    }
}
