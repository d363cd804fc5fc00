//! The edits by a delta, and fill, of the plain program. Every media has the source frames [0, 86400).

use crate::{Item, Side, Track, later};

const SOURCE_FRAMES: u32 = 86_400;
const MOST_FRAMES: u32 = 2_592_000;

fn earlier(side: Side, by: u32) -> Side {
    match side {
        Side::Dark => Side::Dark,
        Side::Media { media, source } => Side::Media { media, source: source - by },
    }
}

/// How far what an item or gap shows goes on.
fn after(item: &Item) -> u32 {
    match item.side {
        Side::Dark => u32::MAX,
        Side::Media { source, .. } => SOURCE_FRAMES - source - item.len,
    }
}

/// How far it reaches back.
fn before(item: &Item) -> u32 {
    match item.side {
        Side::Dark => u32::MAX,
        Side::Media { source, .. } => source,
    }
}

fn gap(len: u32) -> Item {
    Item { number: None, side: Side::Dark, len }
}

/// The delta between 0 and the asked one that is nearest to it, of those from -earlier to later.
fn used(by: i32, earlier: u32, later: u32) -> i32 {
    if by < 0 { -(by.unsigned_abs().min(earlier) as i32) } else { (by as u32).min(later) as i32 }
}

impl Item {
    fn grow_back(&mut self, by: u32) {
        self.side = earlier(self.side, by);
        self.len += by;
    }

    fn give_front(&mut self, by: u32) {
        self.side = later(self.side, by);
        self.len -= by;
    }
}

impl Track {
    fn index_of(&self, number: u32) -> usize {
        self.items.iter().position(|item| item.number == Some(number)).unwrap()
    }

    fn is_gap(&self, index: usize) -> bool {
        self.items.get(index).is_some_and(|item| item.number.is_none())
    }

    /// Makes the gap with this index longer or shorter, puts one there, or takes it away.
    fn change_gap(&mut self, index: usize, by: i32) {
        if !self.is_gap(index) {
            if by > 0 {
                self.items.insert(index, gap(by as u32));
            }
            return;
        }
        self.items[index].len = self.items[index].len.saturating_add_signed(by);
        if self.items[index].len == 0 {
            self.items.remove(index);
        }
    }

    pub fn trim_head(&mut self, number: u32, by: i32) -> i32 {
        let index = self.index_of(number);
        let item = self.items[index];
        let dark = if index > 0 && self.is_gap(index - 1) { self.items[index - 1].len } else { 0 };
        let delta = used(by, dark.min(before(&item)), item.len - 1);
        if delta < 0 {
            self.items[index].grow_back(delta.unsigned_abs());
        } else {
            self.items[index].give_front(delta as u32);
        }
        let at = if index > 0 && self.is_gap(index - 1) { index - 1 } else { index };
        self.change_gap(at, delta);
        delta
    }

    pub fn trim_tail(&mut self, number: u32, by: i32) -> i32 {
        let index = self.index_of(number);
        let item = self.items[index];
        let rest = &self.items[index + 1..];
        let dark = match rest {
            [] => MOST_FRAMES - self.len,
            [last] if last.number.is_none() => MOST_FRAMES - self.len + last.len,
            [next, ..] if next.number.is_none() => next.len,
            _ => 0,
        };
        let beyond = rest.first().filter(|next| next.number.is_none()).map_or(0, |next| next.len);
        let delta = used(by, item.len - 1, dark.min(after(&item)));
        self.items[index].len = item.len.saturating_add_signed(delta);
        self.change_gap(index + 1, -delta);
        self.len += (delta.max(0) as u32).saturating_sub(beyond);
        delta
    }

    pub fn slip(&mut self, number: u32, by: i32) -> i32 {
        let index = self.index_of(number);
        let item = &mut self.items[index];
        let delta = used(by, before(item), after(item));
        item.side = if delta < 0 { earlier(item.side, delta.unsigned_abs()) } else { later(item.side, delta as u32) };
        delta
    }

    pub fn roll(&mut self, at: u32, by: i32) -> i32 {
        let (index, _) = self.find(at);
        self.move_between(index - 1, index, by)
    }

    pub fn slide(&mut self, number: u32, by: i32) -> i32 {
        let index = self.index_of(number);
        if index == 0 || index + 1 == self.items.len() { 0 } else { self.move_between(index - 1, index + 1, by) }
    }

    fn move_between(&mut self, left: usize, right: usize, by: i32) -> i32 {
        let (l, r) = (self.items[left], self.items[right]);
        let delta = used(by, (l.len - 1).min(before(&r)), (r.len - 1).min(after(&l)));
        self.items[left].len = l.len.saturating_add_signed(delta);
        if delta < 0 {
            self.items[right].grow_back(delta.unsigned_abs());
        } else {
            self.items[right].give_front(delta as u32);
        }
        delta
    }

    pub fn ripple_head(&mut self, number: u32, by: i32) -> i32 {
        let index = self.index_of(number);
        let item = &mut self.items[index];
        let delta = used(by, before(item).min(MOST_FRAMES - self.len), item.len - 1);
        if delta < 0 {
            item.grow_back(delta.unsigned_abs());
        } else {
            item.give_front(delta as u32);
        }
        self.len = self.len.saturating_add_signed(-delta);
        delta
    }

    pub fn ripple_tail(&mut self, number: u32, by: i32) -> i32 {
        let index = self.index_of(number);
        let item = &mut self.items[index];
        let delta = used(by, item.len - 1, after(item).min(MOST_FRAMES - self.len));
        item.len = item.len.saturating_add_signed(delta);
        self.len = self.len.saturating_add_signed(delta);
        delta
    }

    pub fn fill(&mut self, at: u32, side: Side, len: Option<u32>) -> u32 {
        let (index, _) = self.find(at);
        let room = self.items[index].len;
        let item = self.new_item(side, len.map_or(room, |len| len.min(room)));
        self.items.insert(index, item);
        self.change_gap(index + 1, -(item.len as i32));
        item.number.unwrap()
    }
}
