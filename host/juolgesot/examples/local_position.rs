use juolgesot::{local_position, Edition, LocalPosition, Refusal};

fn main() -> Result<(), Refusal> {
    // Bits 0 and 1 of word 0, bit 5 of word 1, and bit 0 of word 0 of the new state (bit 31: staged): each word has a lane of its own.
    let set = [(0, 0x3), (1, 0x20), (0x8000_0000, 0x1)];
    let full = Edition::Full;
    // In a lane higher bits stand lower.
    assert_eq!(local_position(&set, 0, 0, full)?, Some(LocalPosition(1)));
    assert_eq!(local_position(&set, 0, 1, full)?, Some(LocalPosition(0)));
    assert_eq!(local_position(&set, 1, 5, full)?, Some(LocalPosition(32)));
    assert_eq!(local_position(&set, 0x8000_0000, 0, full)?, Some(LocalPosition(64)));

    // Bits that the set does not ask for have none.
    assert_eq!(local_position(&set, 1, 4, full)?, None);
    assert_eq!(local_position(&set, 2, 0, full)?, None);
    assert_eq!(local_position(&set, 0, 32, full)?, None);

    // A set is refused as its rounds are.
    assert_eq!(local_position(&[(0, 1), (1, 0)], 0, 0, full), Err(Refusal::BadPair { pair: 1 }));
    Ok(())
}
