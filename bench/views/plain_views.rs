//! The plain program that `bench/views/run` measures cutroom against: one track of clips of 20 frames, with a dissolve of
//! two frames on each side at each second cut, and lines `view 0 A B`. It proves nothing and looks for no fault.

use std::fmt::Write as _;
use std::io::{BufRead, Write};

struct Clip {
    media: u32,
    source: u32,
    from: u32,
    len: u32,
    /// How far the dissolve at its head reaches before it and behind.
    head: u32,
    tail: u32,
}

fn track(count: u32) -> Vec<Clip> {
    (0..count)
        .map(|number| Clip {
            media: number % 2,
            source: 50,
            from: number * 20,
            len: 20,
            head: if number % 2 == 1 { 2 } else { 0 },
            tail: if number % 2 == 0 && number + 1 < count { 2 } else { 0 },
        })
        .collect()
}

/// Writes the runs of the places [a, b).
fn view(track: &[Clip], a: u32, b: u32, reply: &mut String) {
    let first = track.partition_point(|clip| clip.from + clip.len <= a).saturating_sub(1);
    reply.push_str("seen 0");
    for (index, clip) in track.iter().enumerate().skip(first) {
        if clip.from >= b {
            break;
        }
        let from = (clip.from + clip.head).max(a);
        let to = (clip.from + clip.len - clip.tail).min(b);
        if from < to {
            write!(reply, " @{} {} {}", clip.media, clip.source + from - clip.from, to - from).unwrap();
        }
        if clip.tail > 0 {
            let next = &track[index + 1];
            let begin = next.from - next.head;
            let from = begin.max(a);
            let to = (next.from + next.head).min(b);
            if from < to {
                    let left = clip.source + from - clip.from;
                let right = next.source + from - next.from;
                let den = 2 * next.head + 1;
                write!(reply, " mix @{} {left} @{} {right} {} {den} {}", clip.media, next.media, from - begin + 1, to - from)
                    .unwrap();
            }
        }
    }
    reply.push('\n');
}

fn main() {
    let count = std::env::args().nth(1).unwrap().parse().unwrap();
    let track = track(count);
    let mut output = std::io::stdout().lock();
    for line in std::io::stdin().lock().lines() {
        let line = line.unwrap();
        let mut words = line.split_whitespace().skip(2).map(|word| word.parse().unwrap());
        let (a, b) = (words.next().unwrap(), words.next().unwrap());
        let mut reply = String::new();
        view(&track, a, b, &mut reply);
        output.write_all(reply.as_bytes()).unwrap();
    }
}
