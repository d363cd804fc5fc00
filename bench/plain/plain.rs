//! The plain program that `bench/plain/run` measures cutroom against: one station, tracks that are vectors of items, no
//! proofs, no dissolves, no limits, and of links only that they are made. It answers valid lines as cutroom does, and
//! nothing else of it is meant.

mod deltas;
mod links;

use std::io::{BufRead, Write};

#[derive(Clone, Copy, PartialEq)]
enum Side {
    Dark,
    Media { media: u32, source: u32 },
}

#[derive(Clone, Copy)]
struct Item {
    number: Option<u32>,
    side: Side,
    len: u32,
}

#[derive(Default)]
struct Track {
    items: Vec<Item>,
    next: u32,
    len: u32,
    /// Whether the item with each number has a link.
    linked: Vec<bool>,
    next_link: u32,
}

fn later(side: Side, by: u32) -> Side {
    match side {
        Side::Dark => Side::Dark,
        Side::Media { media, source } => Side::Media { media, source: source + by },
    }
}

impl Track {
    /// The index of the item that holds the place, and where it begins.
    fn find(&self, at: u32) -> (usize, u32) {
        let mut from = 0;
        for (index, item) in self.items.iter().enumerate() {
            if at < from + item.len {
                return (index, from);
            }
            from += item.len;
        }
        (self.items.len(), from)
    }

    fn find_number(&self, number: u32) -> Option<(u32, u32)> {
        let mut from = 0;
        for item in &self.items {
            if item.number == Some(number) {
                return Some((from, from + item.len));
            }
            from += item.len;
        }
        None
    }

    /// Puts items in place of the places [x, y).
    fn splice(&mut self, x: u32, y: u32, middle: &[Item]) {
        let (first, first_from) = self.find(x);
        let (last, last_from) = self.find(y);
        let mut parts: Vec<Item> = Vec::with_capacity(middle.len() + 2);
        let mut left_number = None;
        if first < self.items.len() && first_from < x {
            parts.push(Item { len: x - first_from, ..self.items[first] });
            left_number = self.items[first].number;
        } else if first > 0 {
            left_number = self.items[first - 1].number;
        }
        parts.extend_from_slice(middle);
        let mut end = last;
        if last < self.items.len() {
            let right = self.items[last];
            let mut number = right.number;
            if number.is_some() && number == left_number {
                number = Some(self.next);
                self.next += 1;
            }
            let by = y - last_from;
            parts.push(Item { number, side: later(right.side, by), len: right.len - by });
            end = last + 1;
        }
        let mut start = first;
        if start > 0 {
            start -= 1;
            parts.insert(0, self.items[start]);
        }
        if end < self.items.len() {
            parts.push(self.items[end]);
            end += 1;
        }
        let mut joined: Vec<Item> = Vec::with_capacity(parts.len());
        for part in parts {
            match joined.last_mut() {
                Some(last) if last.number.is_none() && part.number.is_none() => last.len += part.len,
                _ => joined.push(part),
            }
        }
        self.items.splice(start..end, joined);
        let added: u32 = middle.iter().map(|item| item.len).sum();
        self.len = self.len + added - (y - x);
    }

    fn pad(&mut self, at: u32) {
        if self.len < at {
            let gap = Item { number: None, side: Side::Dark, len: at - self.len };
            self.splice(self.len, self.len, &[gap]);
        }
    }

    fn new_item(&mut self, side: Side, len: u32) -> Item {
        let number = self.next;
        self.next += 1;
        Item { number: Some(number), side, len }
    }
}

fn number(word: &str) -> u32 {
    word.parse().unwrap()
}

fn thing(word: &str, source: &str) -> Side {
    Side::Media { media: number(&word[1..]), source: number(source) }
}

fn delta(word: &str) -> i32 {
    word.parse().unwrap()
}

fn tracks_of(word: &str) -> Vec<usize> {
    word.split(',').map(|track| track.parse().unwrap()).collect()
}

fn main() {
    let words: Vec<String> = std::env::args().collect();
    let count: usize = words[2].parse().unwrap();
    let mut tracks: Vec<Track> = (0..count).map(|_| Track::default()).collect();
    let mut journal: Vec<String> = Vec::new();
    let mut output = std::io::stdout().lock();
    for (at, line) in std::io::stdin().lock().lines().enumerate() {
        let line = line.unwrap();
        let words: Vec<&str> = line.split([' ', '\t']).filter(|word| !word.is_empty()).collect();
        let point = journal.len();
        let reply = match words[0] {
            "point" => format!("point {point}\n"),
            "items" => {
                let mut text = format!("items {point}");
                for item in &tracks[number(words[1]) as usize].items {
                    match (item.number, item.side) {
                        (Some(i), Side::Media { media, source }) => {
                            text += &format!(" {i} @{media} {source} {}", item.len)
                        }
                        _ => text += &format!(" dark {}", item.len),
                    }
                }
                text + "\n"
            }
            "view" => {
                let track = &tracks[number(words[1]) as usize];
                let (a, b) = (number(words[2]), number(words[3]));
                let mut text = format!("seen {point}");
                let mut run: Option<(Side, u32)> = None;
                let (mut index, mut from) = track.find(a);
                while index < track.items.len() && from < b {
                    let item = track.items[index];
                    let (begin, end) = (a.max(from), b.min(from + item.len));
                    let side = later(item.side, begin - from);
                    match run {
                        Some((first, len)) if later(first, len) == side => run = Some((first, len + end - begin)),
                        _ => {
                            put_run(&mut text, run);
                            run = Some((side, end - begin));
                        }
                    }
                    from += item.len;
                    index += 1;
                }
                put_run(&mut text, run);
                text + "\n"
            }
            "overwrite" => {
                let track = &mut tracks[number(words[1]) as usize];
                let (at, len) = (number(words[2]), number(words[5]));
                track.pad(at);
                let item = track.new_item(thing(words[3], words[4]), len);
                track.splice(at, (at + len).min(track.len), &[item]);
                format!("ok {point} item {}\n", item.number.unwrap())
            }
            "insert" => {
                let own = number(words[2]) as usize;
                let (at, len) = (number(words[3]), number(words[6]));
                tracks[own].pad(at);
                let item = tracks[own].new_item(thing(words[4], words[5]), len);
                for track in tracks_of(words[1]) {
                    let gap = Item { number: None, side: Side::Dark, len };
                    if track == own {
                        tracks[track].splice(at, at, &[item]);
                    } else if at < tracks[track].len {
                        tracks[track].splice(at, at, &[gap]);
                    }
                }
                format!("ok {point} item {}\n", item.number.unwrap())
            }
            "extract" => {
                let own = number(words[2]) as usize;
                let (x, y) = tracks[own].find_number(number(words[3])).unwrap();
                for track in tracks_of(words[1]) {
                    let len = tracks[track].len;
                    tracks[track].splice(x.min(len), y.min(len), &[]);
                }
                format!("ok {point}\n")
            }
            "trim" => {
                let track = &mut tracks[number(words[1]) as usize];
                let (item, by) = (number(words[2]), delta(words[4]));
                let used = if words[3] == "head" { track.trim_head(item, by) } else { track.trim_tail(item, by) };
                format!("ok {point} by {used}\n")
            }
            "slip" => {
                let used = tracks[number(words[2]) as usize].slip(number(words[3]), delta(words[4]));
                format!("ok {point} by {used}\n")
            }
            "roll" => {
                let used = tracks[number(words[1]) as usize].roll(number(words[2]), delta(words[3]));
                format!("ok {point} by {used}\n")
            }
            "slide" => {
                let used = tracks[number(words[2]) as usize].slide(number(words[3]), delta(words[4]));
                format!("ok {point} by {used}\n")
            }
            // of one track alone
            "ripple" => {
                let track = &mut tracks[number(words[2]) as usize];
                let (item, by) = (number(words[3]), delta(words[5]));
                let used = if words[4] == "head" { track.ripple_head(item, by) } else { track.ripple_tail(item, by) };
                format!("ok {point} by {used}\n")
            }
            "fill" => {
                let track = &mut tracks[number(words[1]) as usize];
                let len = words.get(6).map(|word| number(word));
                let item = track.fill(number(words[2]), thing(words[3], words[4]), len);
                format!("ok {point} item {item}\n")
            }
            "link" => {
                let items: Vec<u32> = words[2].split(',').map(number).collect();
                let (home, made) = links::link(&mut tracks, &tracks_of(words[1]), &items);
                format!("ok {point} link {home}.{made}\n")
            }
            other => panic!("{other}"),
        };
        if reply.starts_with("ok") {
            journal.push(format!("0 {} {}\n", at + 1, words.join(" ")));
        }
        output.write_all(reply.as_bytes()).unwrap();
    }
    let mut text = format!("journal {}\n", journal.len());
    for entry in &journal {
        text += entry;
    }
    output.write_all(text.as_bytes()).unwrap();
}

fn put_run(text: &mut String, run: Option<(Side, u32)>) {
    match run {
        Some((Side::Dark, len)) => *text += &format!(" dark {len}"),
        Some((Side::Media { media, source }, len)) => *text += &format!(" @{media} {source} {len}"),
        None => {}
    }
}
