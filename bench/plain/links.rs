//! Links of the plain program: one item on each named track, which have one offset and no link yet.

use crate::{Side, Track};

/// The record place of an item less the source frame that it shows there.
fn offset(track: &Track, number: u32) -> i64 {
    let mut from = 0;
    for item in &track.items {
        if item.number == Some(number) {
            return match item.side {
                Side::Media { source, .. } => i64::from(from) - i64::from(source),
                Side::Dark => unreachable!("an item is no gap"),
            };
        }
        from += item.len;
    }
    panic!("no item {number}")
}

/// Links the items, and answers the home of their link, which is the first of the tracks, and its number.
pub fn link(tracks: &mut [Track], named: &[usize], items: &[u32]) -> (usize, u32) {
    let first = offset(&tracks[named[0]], items[0]);
    for (&track, &item) in named.iter().zip(items) {
        assert_eq!(offset(&tracks[track], item), first);
        assert!(!is_linked(&tracks[track], item));
    }
    for (&track, &item) in named.iter().zip(items) {
        let linked = &mut tracks[track].linked;
        let count = linked.len().max(item as usize + 1);
        linked.resize(count, false);
        linked[item as usize] = true;
    }
    let home = &mut tracks[named[0]];
    home.next_link += 1;
    (named[0], home.next_link - 1)
}

fn is_linked(track: &Track, item: u32) -> bool {
    track.linked.get(item as usize).is_some_and(|linked| *linked)
}
