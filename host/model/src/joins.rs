//! "Merging read sets" (11/13).

use crate::rounds::{self, MOST_PAIRS};
use crate::Refused;
use std::collections::BTreeMap;

/// "Same words, masks or'ed": the join of two sets in form, word, mask, word, mask ..
pub fn join(a: &[u32], b: &[u32]) -> Vec<u32> {
    let mut joined = BTreeMap::new();
    for pair in a.chunks(2).chain(b.chunks(2)) {
        *joined.entry(pair[0]).or_insert(0) |= pair[1];
    }
    joined.into_iter().flat_map(|(word, mask)| [word, mask]).collect()
}

/// What a call is to answer, with so many words lent for it. "The first argument is tested by 1, then 2, then the second so; after
/// that a join of over 8192 pairs is 1"; then 14.
pub fn answer(a: &[u32], b: &[u32], out: usize) -> Result<Vec<u32>, Refused> {
    let refused = |(number, item)| Refused { number, part: 0, item };
    rounds::check_form(a).map_err(refused)?;
    rounds::check_form(b).map_err(refused)?;
    let joined = join(a, b);
    if joined.len() > 2 * MOST_PAIRS {
        return Err(Refused::plain(1));
    }
    if joined.len() > out {
        return Err(Refused::plain(14));
    }
    Ok(joined)
}

#[cfg(test)]
mod tests {
    use super::*;

    #[test]
    fn same_words_masks_ored() {
        assert_eq!(join(&[0, 3, 2, 4], &[0, 5, 1, 1, 1 << 31, 7]), [0, 7, 1, 1, 2, 4, 1 << 31, 7]);
        assert_eq!(answer(&[], &[], 0), Ok(vec![]));
        assert_eq!(answer(&[5, 1], &[], 2), Ok(vec![5, 1]));
    }

    #[test]
    fn the_first_set_comes_first() {
        let long: Vec<u32> = (0..8193).flat_map(|word| [word, 1]).collect();
        let (bad, good) = ([3, 1, 3, 1], [0, 1]);
        assert_eq!(answer(&bad, &long, 0), Err(Refused::at(2, 0, 1)));
        assert_eq!(answer(&long, &bad, 0), Err(Refused::plain(1)));
        assert_eq!(answer(&good, &bad, 0), Err(Refused::at(2, 0, 1)));
        assert_eq!(answer(&long[..16384], &[9000, 1], 16384), Err(Refused::plain(1)));
        assert_eq!(answer(&long[..16384], &[9, 2], 16383), Err(Refused::plain(14)));
        assert_eq!(answer(&long[..16384], &[9, 2], 16384).unwrap()[19], 3);
    }
}
