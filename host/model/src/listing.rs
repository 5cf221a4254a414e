//! "Listing program".

use crate::edition::Edition;
use crate::rounds::{Lanes, Packing, Pair};
use crate::Refused;
use std::collections::BTreeMap;

pub const MOST_POSITIONS: usize = 8192;
pub const LIST_ROOM: usize = 16384;

/// The words of a read set for these records, or the offset of the bad record.
fn read_set(records: &[u8]) -> Result<Vec<Pair>, usize> {
    let mut set = BTreeMap::new();
    let mut positions = 0;
    let mut at = 0;
    loop {
        match records.get(at) {
            Some(0) if at + 1 == records.len() => return Ok(set.into_iter().collect()),
            Some(0) => return Err(at + 1),
            Some(&kind) if kind == 1 || kind == 2 => {
                if positions == MOST_POSITIONS || at + 5 > records.len() {
                    return Err(at);
                }
                let body = &records[at + 1..at + 5];
                let position = u32::from_le_bytes([body[0], body[1], body[2], body[3]]);
                let staged = (kind as u32 - 1) << 31;
                *set.entry(position >> 5 | staged).or_insert(0) |= 1u32 << (position & 31);
                positions += 1;
                at += 5;
            }
            Some(_) | None => return Err(at),
        }
    }
}

fn lines(lanes: &Lanes) -> String {
    let mut text = format!("rounds {}\n", crate::rounds::rounds(lanes));
    for (lane, pairs) in lanes.iter().enumerate() {
        for (round, (word, mask)) in pairs.iter().enumerate() {
            let kind = if word >> 31 == 0 { 'n' } else { 's' };
            text += &format!("{} {} {} {} {:08x}\n", lane, round, kind, word & 0x7FFF_FFFF, mask);
        }
    }
    text
}

/// What a call is to hand out, with so many words and bytes lent to it. Refusals: 32, 29, 14.
pub fn answer(
    records: &[u8],
    room: usize,
    out: usize,
    edition: u32,
    pack: impl FnOnce(Edition, &[Pair]) -> Result<Packing, (u32, u64)>,
) -> Result<String, Refused> {
    if room < LIST_ROOM {
        return Err(Refused::plain(32));
    }
    let edition = Edition::numbered(edition).ok_or(Refused::plain(29))?;
    let text = text(records, |set| pack(edition, set));
    if out < text.len() {
        return Err(Refused::plain(14));
    }
    Ok(text)
}

/// What the program prints. `pack` is asked for a packing of the set that the records make.
pub fn text(records: &[u8], pack: impl FnOnce(&[Pair]) -> Result<Packing, (u32, u64)>) -> String {
    match read_set(records) {
        Err(offset) => format!("refused 17 at {}\n", offset),
        Ok(set) => match pack(&set) {
            Ok(packing) => lines(&packing.lanes),
            Err((number, _)) => format!("refused {}\n", number),
        },
    }
}

#[cfg(test)]
mod tests {
    use super::*;
    use crate::rounds::pack;

    fn records(positions: impl Iterator<Item = u32>) -> Vec<u8> {
        let mut bytes = Vec::new();
        for position in positions {
            bytes.push(1);
            bytes.extend(position.to_le_bytes());
        }
        bytes.push(0);
        bytes
    }

    /// The listing limit stays: 8192 positions, of which a small edition packs 4096.
    #[test]
    fn an_edition_is_listed_by_its_number() {
        let ask = |records: &[u8], edition| answer(records, LIST_ROOM, usize::MAX, edition, pack);
        let m2 = "rounds 1\n0 0 n 0 00000003\n1 0 n 1 00000020\n2 0 s 0 00000001\n";
        let m2_records = [&[1, 0, 0, 0, 0, 1, 1, 0, 0, 0, 1, 37, 0, 0, 0, 2, 0, 0, 0, 0, 0]];
        assert_eq!(ask(m2_records[0], 256).unwrap(), m2);
        assert_eq!(ask(m2_records[0], 128).unwrap(), m2);
        let far = records((0..129).map(|word| 32 * word));
        assert!(ask(&far, 128).unwrap().contains("\n0 1 n 128 00000001\n"));
        assert!(ask(&far, 256).unwrap().contains("\n128 0 n 128 00000001\n"));
        assert!(ask(&records(0..4096), 128).unwrap().starts_with("rounds 1\n"));
        assert_eq!(ask(&records(0..4097), 128).unwrap(), "refused 21\n");
        assert!(ask(&records(0..8192), 256).unwrap().starts_with("rounds 1\n"));
        for edition in [128, 256] {
            assert_eq!(ask(&records(0..8193), edition).unwrap(), "refused 17 at 40960\n");
        }
    }

    #[test]
    fn room_then_edition_then_result() {
        assert_eq!(answer(&[9], LIST_ROOM - 1, 0, 7, pack), Err(Refused::plain(32)));
        assert_eq!(answer(&[9], LIST_ROOM, 0, 7, pack), Err(Refused::plain(29)));
        assert_eq!(answer(&[9], LIST_ROOM, 15, 128, pack), Err(Refused::plain(14)));
        assert_eq!(answer(&[9], LIST_ROOM, 16, 128, pack).unwrap(), "refused 17 at 0\n");
    }
}
