use juolgesot::{list, Edition, Refusal};

fn main() -> Result<(), Refusal> {
    // Unstaged positions 0, 1 and 37, staged position 0, and the end: a kind and a little-endian position each.
    let records = [1, 0, 0, 0, 0, 1, 1, 0, 0, 0, 1, 37, 0, 0, 0, 2, 0, 0, 0, 0, 0];
    let text = list(&records, Edition::Full)?;
    assert_eq!(text, b"rounds 1\n0 0 n 0 00000003\n1 0 n 1 00000020\n2 0 s 0 00000001\n");

    // What is wrong with the records is said in the text.
    assert_eq!(list(&[9], Edition::Full)?, b"refused 17 at 0\n");
    Ok(())
}
