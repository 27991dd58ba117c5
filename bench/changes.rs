//! Messages that differ a little from a good one.

use crate::base::{u24, AVPS};
use crate::plain::first;

/// Numbers that look as chance would have them (xorshift).
struct Chance(u64);

impl Chance {
    fn below(&mut self, end: usize) -> usize {
        self.0 ^= self.0 << 13;
        self.0 ^= self.0 >> 7;
        self.0 ^= self.0 << 17;
        (self.0 >> 11) as usize % end.max(1)
    }
}

/// The AVPs of a message as they lie, with their padding.
fn avps_of(octets: &[u8]) -> Vec<Vec<u8>> {
    let (mut rest, mut avps) = (&octets[20..], Vec::new());
    while let Some((_, size)) = first(rest) {
        avps.push(rest[..size].to_vec());
        rest = &rest[size..];
    }
    avps
}

fn with_avps(octets: &[u8], avps: &[Vec<u8>]) -> Vec<u8> {
    let mut changed = octets[..20].to_vec();
    changed.extend(avps.concat());
    let size = (changed.len() as u32).to_be_bytes();
    changed[1..4].copy_from_slice(&size[1..]);
    changed
}

/// One change of an AVP, or of which there are.
fn change_avps(chance: &mut Chance, avps: &mut Vec<Vec<u8>>) {
    let at = chance.below(avps.len());
    match chance.below(5) {
        0 => drop(avps.remove(at)),
        1 => avps.insert(at, avps[at].clone()),
        2 => {
            let code = AVPS[chance.below(AVPS.len())].0;
            avps[at][..4].copy_from_slice(&code.to_be_bytes());
        }
        3 => avps[at][4] = [0, 0x20, 0x40, 0x60, 0x80, 0xc0][chance.below(6)],
        _ => {
            let length = u24(&avps[at][5..]).wrapping_add(chance.below(9)).saturating_sub(4) as u32;
            avps[at][5..8].copy_from_slice(&length.to_be_bytes()[1..]);
        }
    }
}

/// The message with one to three changes.
pub fn changed(octets: &[u8], seed: u64) -> Vec<u8> {
    let mut chance = Chance(seed.wrapping_mul(0x9e37_79b9_7f4a_7c15) | 1);
    let mut octets = octets.to_vec();
    for _ in 0..1 + chance.below(3) {
        match chance.below(6) {
            0 => {
                let at = chance.below(octets.len());
                octets[at] = chance.below(256) as u8;
            }
            1 => {
                octets[4] = [0, 0x10, 0x20, 0x40, 0x80, 0x90, 0xa0, 0xc0][chance.below(8)];
                let command = [257u32, 280, 282, 272, 0][chance.below(5)];
                octets[5..8].copy_from_slice(&command.to_be_bytes()[1..]);
            }
            _ => {
                let mut avps = avps_of(&octets);
                if !avps.is_empty() {
                    change_avps(&mut chance, &mut avps);
                    octets = with_avps(&octets, &avps);
                }
            }
        }
    }
    octets
}
