use juolgesot::{read_rounds, Edition, Refusal};

fn main() -> Result<(), Refusal> {
    // Bits 0 and 1 of word 0, bit 5 of word 1, and bit 0 of word 0 of the new state (bit 31: staged).
    let set = [(0, 0x3), (1, 0x20), (0x8000_0000, 0x1)];
    let packed = read_rounds(&set, Edition::Full)?;
    // One round; all three pairs as one piece were placed.
    assert_eq!((packed.rounds, packed.size), (1, 3));
    assert_eq!(packed.read(0, 0), Some((0, 0x3)));
    assert_eq!(packed.read(1, 0), Some((1, 0x20)));
    assert_eq!(packed.read(2, 0), Some((0x8000_0000, 0x1)));
    assert_eq!(packed.read(3, 0), None);

    // A round has two words a lane: 256 lanes, or 128 in the small edition.
    assert_eq!(packed.words.len(), 512);
    assert_eq!(read_rounds(&set, Edition::Small)?.words.len(), 256);

    // A pair whose mask is 0 is told by its place.
    assert_eq!(read_rounds(&[(0, 1), (1, 0)], Edition::Full), Err(Refusal::BadPair { pair: 1 }));
    Ok(())
}
