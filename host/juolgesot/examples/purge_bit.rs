use juolgesot::{purge_bit, stage_counts, Edition, Pin, Place, Refusal, Stage, EMPTY};

fn main() -> Result<(), Refusal> {
    let mut stage = Stage::empty();
    stage.put(0, 0, Pin(1));
    stage.put(0, 4096, Pin(2));
    stage.put(1, 0, Pin(3));
    stage.put(2, 0, Pin(3));
    // As a plan record has them: without the unused first.
    let mut slots = stage.slots[1..].to_vec();

    let counts = stage_counts(&slots, Edition::Full);
    assert_eq!(counts, [3, 2]);
    let after = purge_bit(&counts, &mut slots, Place { level: 2, slot: 0 }, Edition::Full)?;
    assert!(after.is_empty() || after == [3, 0]);
    assert!(slots.iter().all(|&pin| pin == EMPTY));

    // A count that is too small is refused.
    assert_eq!(
        purge_bit(&[3, 1], &mut stage.slots[1..].to_vec(), Place { level: 2, slot: 0 }, Edition::Full),
        Err(Refusal::LowCount)
    );
    Ok(())
}
