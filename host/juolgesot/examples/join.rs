use juolgesot::{join, JoinRefusal, JoinSet, Refusal};

fn main() -> Result<(), JoinRefusal> {
    // Word 0 is in both: bits 0 and 1 of the one, bit 5 of the other. The last one is word 0 of the new state (bit 31: staged).
    let (a, b) = ([(0, 0x3), (7, 0x80)], [(0, 0x20), (3, 0x1), (0x8000_0000, 0x1)]);
    let joined = join(&a, &b)?;
    assert_eq!(joined, [(0, 0x23), (3, 0x1), (7, 0x80), (0x8000_0000, 0x1)]);

    // Order and grouping don't change it; with itself or the empty set it stays as it is.
    assert_eq!(join(&b, &a)?, joined);
    assert_eq!(join(&joined, &b)?, joined);
    assert_eq!(join(&joined, &joined)?, joined);
    assert_eq!(join(&joined, &[])?, joined);

    // Words ascend. It is told which set is wrong, and where.
    let bad = [(3, 0x1), (3, 0x2)];
    let refused = JoinRefusal { set: JoinSet::Second, refusal: Refusal::BadPair { pair: 1 } };
    assert_eq!(join(&a, &bad), Err(refused));
    Ok(())
}
