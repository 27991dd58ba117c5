//! The base dictionary for the programs that the crates are counted beside, and what they say of a message.
//!
//! A definition is found by its AVP Code alone where there is no Vendor-ID: the base dictionary has no vendor's AVPs.

/// What data of an AVP has to be.
#[derive(Clone, Copy, PartialEq)]
pub enum Kind {
    Octets,
    Four,
    Address,
    Text,
    Identity,
    Uri,
    Group(Rule),
    /// Failed-AVP: its members aren't looked at.
    Failed,
}

/// An AVP's code, with the least and the greatest number of it; the code 0 is for all others.
#[derive(Clone, Copy, PartialEq)]
pub struct Entry {
    pub code: u32,
    pub least: u32,
    pub most: u32,
}

pub type Rule = &'static [Entry];

const fn one(code: u32) -> Entry {
    Entry { code, least: 1, most: 1 }
}

const fn optional(code: u32) -> Entry {
    Entry { code, least: 0, most: 1 }
}

const fn any(code: u32) -> Entry {
    Entry { code, least: 0, most: u32::MAX }
}

const fn some(code: u32) -> Entry {
    Entry { code, least: 1, most: u32::MAX }
}

const APPLICATION: Rule = &[some(266), optional(258), optional(259)];
const PROXY: Rule = &[one(280), one(33), any(0)];
const EXPERIMENTAL: Rule = &[one(266), one(298)];

pub const AVPS: [(u32, Kind); 29] = [
    (1, Kind::Text),
    (25, Kind::Octets),
    (33, Kind::Octets),
    (55, Kind::Four),
    (257, Kind::Address),
    (258, Kind::Four),
    (259, Kind::Four),
    (263, Kind::Text),
    (264, Kind::Identity),
    (265, Kind::Four),
    (266, Kind::Four),
    (267, Kind::Four),
    (268, Kind::Four),
    (269, Kind::Text),
    (273, Kind::Four),
    (278, Kind::Four),
    (280, Kind::Identity),
    (281, Kind::Text),
    (283, Kind::Identity),
    (292, Kind::Uri),
    (293, Kind::Identity),
    (294, Kind::Identity),
    (296, Kind::Identity),
    (298, Kind::Four),
    (299, Kind::Four),
    (260, Kind::Group(APPLICATION)),
    (279, Kind::Failed),
    (284, Kind::Group(PROXY)),
    (297, Kind::Group(EXPERIMENTAL)),
];

const CER: Rule = &[
    one(264),
    one(296),
    some(257),
    one(266),
    one(269),
    optional(278),
    any(265),
    any(258),
    any(299),
    any(259),
    any(260),
    optional(267),
    any(0),
];
const CEA: Rule = &[
    one(268),
    one(264),
    one(296),
    some(257),
    one(266),
    one(269),
    optional(278),
    optional(281),
    any(279),
    any(265),
    any(258),
    any(299),
    any(259),
    any(260),
    optional(267),
    any(0),
];
const DWR: Rule = &[one(264), one(296), optional(278), any(0)];
const DWA: Rule = &[one(268), one(264), one(296), optional(281), any(279), optional(278), any(0)];
const DPR: Rule = &[one(264), one(296), one(273), any(0)];
const DPA: Rule = &[one(268), one(264), one(296), optional(281), any(279), any(0)];
const ERROR: Rule = &[
    optional(263),
    one(264),
    one(296),
    one(268),
    optional(278),
    optional(281),
    optional(294),
    any(279),
    optional(297),
    any(284),
    any(0),
];
/// The most entries that a rule has.
pub const MOST: usize = 16;

/// The rule of a message with this flags octet and Command Code, or its Result-Code.
pub fn rule_of(flags: u8, command: u32) -> Result<Rule, u32> {
    let (is_request, is_error) = (flags & 0x80 != 0, flags & 0x20 != 0);
    let rule = match (command, is_request, is_error) {
        (257, true, _) => CER,
        (280, true, _) => DWR,
        (282, true, _) => DPR,
        (_, false, true) => ERROR,
        (257, false, _) => CEA,
        (280, false, _) => DWA,
        (282, false, _) => DPA,
        _ => return Err(3001),
    };
    if flags & (if is_request { 0x20 } else { 0x10 }) == 0 { Ok(rule) } else { Err(3008) }
}

pub fn u24(octets: &[u8]) -> usize {
    u32::from_be_bytes([0, octets[0], octets[1], octets[2]]) as usize
}

pub fn u32_at(octets: &[u8]) -> u32 {
    u32::from_be_bytes(octets[..4].try_into().unwrap())
}

/// An AVP where it lies.
#[derive(Clone, Copy)]
pub struct AvpRef<'a> {
    pub code: u32,
    pub vendor: Option<u32>,
    pub flags: u8,
    pub data: &'a [u8],
}

/// The AVP that goes with a fault.
#[derive(Clone, Copy)]
pub enum Failed<'a> {
    Nothing,
    Found(AvpRef<'a>),
    Example { code: u32, zeros: u32 },
}

/// What is found first.
pub struct Fault<'a> {
    pub code: u32,
    pub failed: Failed<'a>,
}

/// A number that another AVP would change.
pub fn mark_of(code: u32, vendor: Option<u32>, data: &[u8]) -> usize {
    let last = data.last().map_or(7, |octet| *octet as usize);
    code as usize + vendor.map_or(0, |vendor| vendor as usize + 1) + 3 * data.len() + 5 * last
}

/// A number that another verdict would change.
pub fn verdict_mark(verdict: &Result<(), Fault<'_>>) -> usize {
    match verdict {
        Ok(()) => 1,
        Err(fault) => match fault.failed {
            Failed::Nothing => 1000 + fault.code as usize,
            Failed::Found(avp) => 2000 + fault.code as usize + mark_of(avp.code, avp.vendor, avp.data),
            Failed::Example { code, zeros } => {
                2000 + fault.code as usize + mark_of(code, None, &[0; 8][..zeros as usize])
            }
        },
    }
}
