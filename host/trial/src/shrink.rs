//! Makes a list that shows a mismatch shorter, so that a person can read it.

/// A list that cannot be shortened would be tried once for each word; this keeps that within seconds.
const MOST_TRIES: usize = 2_000;

/// Takes out ever smaller parts for as long as the list still shows what it showed.
pub fn shrink<T: Clone>(list: &[T], still_shows: impl Fn(&[T]) -> bool) -> Vec<T> {
    let mut kept = list.to_vec();
    let mut part = (kept.len() / 2).max(1);
    let mut tries = 0;
    loop {
        let before = kept.len();
        take_out_parts(&mut kept, part, &mut tries, &still_shows);
        if tries >= MOST_TRIES || part == 1 && kept.len() == before {
            return kept;
        }
        part = (part / 2).max(1);
    }
}

fn take_out_parts<T: Clone>(kept: &mut Vec<T>, part: usize, tries: &mut usize, still_shows: &impl Fn(&[T]) -> bool) {
    let mut start = 0;
    while start < kept.len() && *tries < MOST_TRIES {
        *tries += 1;
        let end = (start + part).min(kept.len());
        let without = [&kept[..start], &kept[end..]].concat();
        if still_shows(&without) {
            *kept = without;
        } else {
            start = end;
        }
    }
}
