//! The fastest plain program that was found for the same results: raw pointers, tables, one pass. It is here to be
//! counted beside, not to be used: what it reads without a check is safe by what was compared before.
//!
//! A message that its one pass doesn't find good goes to plain.rs, which tells the fault.

use crate::base::{rule_of, u24, verdict_mark, Fault, Kind, Rule, AVPS, MOST};
use crate::plain::{message_mark, octets_mark, Avp, Dictionary, Message};
use std::hint::black_box;

const CODES: usize = 512;
const NONE: u8 = 0xff;

/// What an AVP Code is: its kind, 0 where it isn't defined.
const UNKNOWN: u8 = 0;
const ANYTHING: u8 = 1;
const FOUR: u8 = 2;
const GROUP: u8 = 3;
const IDENTITY: u8 = 4;
const OTHER: u8 = 5;

/// A rule as tables.
struct Row {
    rule: Rule,
    places: [u8; CODES],
}

pub struct Tables {
    kinds: [u8; CODES],
    /// The number of a group's rule.
    groups: [u8; CODES],
    rows: Vec<Row>,
    dictionary: Dictionary,
}

struct Head {
    code: u32,
    flags: u8,
    head: usize,
    length: usize,
    size: usize,
}

/// The head of the AVP at a place with `left` octets, of which it is whole with its padding.
#[inline(always)]
unsafe fn head(at: *const u8, left: usize) -> Option<Head> {
    if left < 8 {
        return None;
    }
    let word = u64::from_be(at.cast::<u64>().read_unaligned());
    let (length, flags) = (word as usize & 0xff_ffff, (word >> 24) as u8);
    let (head, size) = (8 + (flags as usize >> 7) * 4, (length + 3) & !3);
    if length < head || size > left {
        return None;
    }
    Some(Head { code: (word >> 32) as u32, flags, head, length, size })
}

unsafe fn walk(octets: &[u8]) -> usize {
    let (mut at, mut left, mut sum) = (octets.as_ptr().add(20), octets.len() - 20, 0);
    while let Some(avp) = head(at, left) {
        sum += avp.code as usize + avp.length - avp.head;
        at = at.add(avp.size);
        left -= avp.size;
    }
    sum
}

#[inline(always)]
fn is_header(octets: &[u8]) -> bool {
    octets.len() >= 20 && octets[0] == 1 && u24(&octets[1..]) == octets.len() && octets.len() % 4 == 0
}

unsafe fn number(octets: &[u8], at: usize) -> u32 {
    u32::from_be(octets.as_ptr().add(at).cast::<u32>().read_unaligned())
}

unsafe fn decode(octets: &[u8]) -> Option<Message> {
    if !is_header(octets) {
        return None;
    }
    let (mut at, mut left, mut avps) = (octets.as_ptr().add(20), octets.len() - 20, Vec::new());
    while let Some(avp) = head(at, left) {
        let size = avp.length - avp.head;
        let mut data = Vec::with_capacity(size);
        std::ptr::copy_nonoverlapping(at.add(avp.head), data.as_mut_ptr(), size);
        data.set_len(size);
        let vendor = (avp.flags & 0x80 != 0).then(|| u32::from_be(at.add(8).cast::<u32>().read_unaligned()));
        let (mandatory, protected) = (avp.flags & 0x40 != 0, avp.flags & 0x20 != 0);
        avps.push(Avp { code: avp.code, vendor, mandatory, protected, data });
        at = at.add(avp.size);
        left -= avp.size;
    }
    if left > 0 {
        return None;
    }
    Some(Message {
        flags: octets[4] & 0xf0,
        command: number(octets, 4) & 0xff_ffff,
        application: number(octets, 8),
        hop: number(octets, 12),
        end: number(octets, 16),
        avps,
    })
}

unsafe fn put(at: &mut *mut u8, number: u32) {
    at.cast::<u32>().write_unaligned(number.to_be());
    *at = at.add(4);
}

unsafe fn encode(message: &Message) -> Option<Vec<u8>> {
    let lengths = message.avps.iter().map(|avp| (11 + 4 * usize::from(avp.vendor.is_some()) + avp.data.len()) & !3);
    let size = 20 + lengths.sum::<usize>();
    if size > 16777212 || message.command > 16777215 {
        return None;
    }
    let mut octets = Vec::with_capacity(size);
    let mut at: *mut u8 = octets.as_mut_ptr();
    put(&mut at, 0x0100_0000 + size as u32);
    put(&mut at, u32::from(message.flags) << 24 | message.command);
    put(&mut at, message.application);
    put(&mut at, message.hop);
    put(&mut at, message.end);
    for avp in &message.avps {
        let size = avp.data.len();
        put(&mut at, avp.code);
        let flags = u32::from(avp.mandatory) << 30 | u32::from(avp.protected) << 29;
        match avp.vendor {
            None => put(&mut at, flags | (8 + size as u32)),
            Some(vendor) => {
                put(&mut at, 1 << 31 | flags | (12 + size as u32));
                put(&mut at, vendor);
            }
        }
        if size > 0 {
            at.add((size - 1) & !3).cast::<u32>().write_unaligned(0);
            std::ptr::copy_nonoverlapping(avp.data.as_ptr(), at, size);
        }
        at = at.add((size + 3) & !3);
    }
    octets.set_len(size);
    Some(octets)
}

impl Tables {
    pub fn base() -> Tables {
        let (kinds, groups) = ([UNKNOWN; CODES], [NONE; CODES]);
        let mut tables = Tables { kinds, groups, rows: Vec::new(), dictionary: Dictionary::base() };
        for (code, kind) in AVPS {
            let code = code as usize;
            tables.kinds[code] = match kind {
                Kind::Octets | Kind::Failed => ANYTHING,
                Kind::Four => FOUR,
                Kind::Identity => IDENTITY,
                Kind::Address | Kind::Text | Kind::Uri => OTHER,
                Kind::Group(rule) => {
                    tables.groups[code] = tables.add(rule);
                    GROUP
                }
            };
        }
        for (flags, command) in [(0x80, 257), (0, 257), (0x80, 280), (0, 280), (0x80, 282), (0, 282), (0x20, 0)] {
            if let Ok(rule) = rule_of(flags, command) {
                tables.add(rule);
            }
        }
        tables
    }

    fn add(&mut self, rule: Rule) -> u8 {
        let others = rule.iter().position(|entry| entry.code == 0).map_or(NONE, |place| place as u8);
        let mut places = [others; CODES];
        for (place, entry) in rule.iter().enumerate().filter(|(_, entry)| entry.code != 0) {
            places[entry.code as usize] = place as u8;
        }
        self.rows.push(Row { rule, places });
        self.rows.len() as u8 - 1
    }

    /// The number of the rule of a message.
    #[inline(always)]
    fn row(&self, flags: u8, command: u32) -> Option<usize> {
        let (is_request, is_error) = (flags & 0x80 != 0, flags & 0x20 != 0);
        let at = match (command, is_request) {
            (_, false) if is_error => 6,
            (257, _) => usize::from(!is_request),
            (280, _) => 2 + usize::from(!is_request),
            (282, _) => 4 + usize::from(!is_request),
            _ => return None,
        };
        let refused = if is_request { 0x20 } else { 0x10 };
        if flags & refused == 0 { Some(3 + at) } else { None }
    }

    /// Whether the octets are a list that is good by the rule.
    unsafe fn is_list(&self, mut at: *const u8, mut left: usize, row: usize, depth: u32) -> bool {
        let row = self.rows.get_unchecked(row);
        let mut counts = [0u32; MOST];
        while let Some(avp) = head(at, left) {
            let code = avp.code as usize;
            let kind = if code < CODES && avp.flags & 0x80 == 0 { *self.kinds.get_unchecked(code) } else { UNKNOWN };
            if kind == UNKNOWN {
                if avp.flags & 0x40 != 0 {
                    return false;
                }
            } else {
                let place = *row.places.get_unchecked(code);
                if place == NONE {
                    return false;
                }
                *counts.get_unchecked_mut(place as usize & 15) += 1;
                if !self.is_value(kind, at.add(8), avp.length - 8, code, depth) {
                    return false;
                }
            }
            at = at.add(avp.size);
            left -= avp.size;
        }
        // an unknown AVP counts for no entry: all entries for others take any number
        left == 0 && row.rule.iter().zip(counts).all(|(entry, count)| entry.least <= count && count <= entry.most)
    }

    #[inline(always)]
    unsafe fn is_value(&self, kind: u8, data: *const u8, size: usize, code: usize, depth: u32) -> bool {
        match kind {
            ANYTHING => true,
            FOUR => size == 4,
            IDENTITY => {
                let octets = std::slice::from_raw_parts(data, size);
                size > 0 && octets.iter().all(|octet| octet.wrapping_sub(0x21) < 0x5e)
            }
            GROUP => depth < 8 && self.is_list(data, size, *self.groups.get_unchecked(code) as usize, depth + 1),
            _ => match std::slice::from_raw_parts(data, size) {
                octets if code == 257 => match octets {
                    [0, 1, rest @ ..] => rest.len() == 4,
                    [0, 2, rest @ ..] => rest.len() == 16,
                    _ => size >= 2,
                },
                octets if code == 292 => self.is_uri(octets),
                octets => octets.is_ascii() || std::str::from_utf8(octets).is_ok(),
            },
        }
    }

    #[cold]
    fn is_uri(&self, octets: &[u8]) -> bool {
        let rest = octets.strip_prefix(b"aaas://").or(octets.strip_prefix(b"aaa://"));
        rest.is_some_and(|rest| !rest.is_empty() && rest.iter().all(|octet| octet.wrapping_sub(0x21) < 0x5e))
    }

    unsafe fn is_good(&self, octets: &[u8]) -> bool {
        if !is_header(octets) {
            return false;
        }
        let Some(row) = self.row(octets[4], number(octets, 4) & 0xff_ffff) else {
            return false;
        };
        self.is_list(octets.as_ptr().add(20), octets.len() - 20, row, 0)
    }

    pub fn judge<'a>(&self, octets: &'a [u8]) -> Option<Result<(), Fault<'a>>> {
        if unsafe { self.is_good(octets) } {
            return Some(Ok(()));
        }
        self.dictionary.judge(octets)
    }
}

/// What a peer does at a message in an open state: a Device-Watchdog-Request is judged and answered, any other request
/// handed up.
struct Peer {
    tables: Tables,
    /// Result-Code, Origin-Host and Origin-Realm of a success.
    answer: Vec<u8>,
}

impl Peer {
    fn new() -> Peer {
        let avp = |code: u32, data: &[u8]| {
            let (data, vendor) = (data.to_vec(), None);
            Avp { code, vendor, mandatory: true, protected: false, data }
        };
        let avps = vec![avp(268, &2001u32.to_be_bytes()), avp(264, b"b.example"), avp(296, b"example")];
        let message = Message { flags: 0, command: 280, application: 0, hop: 0, end: 0, avps };
        Peer { tables: Tables::base(), answer: unsafe { encode(&message) }.unwrap() }
    }

    /// What is sent or handed up.
    unsafe fn on(&self, octets: &[u8]) -> Option<Vec<u8>> {
        if !is_header(octets) {
            return None;
        }
        if number(octets, 4) == 0x8000_0000 + 280 {
            if !self.tables.is_good(octets) {
                return None;
            }
            let mut answer = self.answer.clone();
            answer[8..20].copy_from_slice(&octets[8..20]);
            return Some(answer);
        }
        let (mut at, mut left) = (octets.as_ptr().add(20), octets.len() - 20);
        while let Some(avp) = head(at, left) {
            at = at.add(avp.size);
            left -= avp.size;
        }
        if left == 0 { Some(octets.to_vec()) } else { None }
    }
}

pub fn run(operation: &str, octets: &[u8], times: u32) -> usize {
    let tables = Tables::base();
    unsafe {
        match operation {
            "walk" => (0..times).map(|_| walk(black_box(octets))).sum(),
            "decode" => (0..times).map(|_| message_mark(black_box(decode(black_box(octets))))).sum(),
            "judge" => {
                let mark = |octets| tables.judge(octets).map_or(0, |verdict| verdict_mark(&verdict));
                (0..times).map(|_| mark(black_box(octets))).sum()
            }
            "encode" => decode(octets).map_or(0, |message| {
                (0..times).map(|_| octets_mark(black_box(encode(black_box(&message))))).sum()
            }),
            "on" => {
                let peer = Peer::new();
                (0..times).map(|_| black_box(peer.on(black_box(octets))).map_or(0, |sent| sent.len())).sum()
            }
            _ => panic!("no operation {operation}"),
        }
    }
}
