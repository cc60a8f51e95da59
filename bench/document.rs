// The work of crates/document_bench in plain Rust: rustc -C opt-level=3 bench/document.rs
#![allow(dead_code)]

use std::hint::black_box;
use std::time::Instant;

#[derive(Clone, Copy, PartialEq, Debug)]
enum Kind {
    Tree,
    Refutation,
}

#[derive(Clone, Copy, Debug)]
struct Fault {
    number: u32,
    place: Option<u32>,
}

#[derive(Clone, Copy)]
struct Record {
    kind: u8,
    answer: u8,
    gap: u16,
    value: u32,
    span: u32,
}

#[derive(Clone, Copy)]
struct Sheet<'a> {
    letter: u8,
    title: &'a [u8],
    records: &'a [u8],
    first: u32,
    second: u32,
    game: u32,
}

enum Siblings {
    Broken,
    Rising,
    Late(usize),
}

fn refused(number: u32) -> Fault {
    Fault { number, place: None }
}

fn two_at(b: &[u8], at: usize) -> u16 {
    u16::from_be_bytes([b[at], b[at + 1]])
}

fn four_at(b: &[u8], at: usize) -> u32 {
    u32::from_be_bytes([b[at], b[at + 1], b[at + 2], b[at + 3]])
}

fn record_at(records: &[u8], i: usize) -> Record {
    let r = &records[12 * i..12 * i + 12];
    Record { kind: r[0], answer: r[1], gap: two_at(r, 2), value: four_at(r, 4), span: four_at(r, 8) }
}

fn key_of(kind: Kind, r: Record) -> u32 {
    match kind {
        Kind::Tree => r.answer as u32,
        Kind::Refutation => r.value,
    }
}

fn stand_of(kind: Kind, records: &[u8], low: usize, i: usize) -> Siblings {
    let mut end = i;
    let mut found = Siblings::Rising;
    while low < end {
        let child = record_at(records, end - 1);
        let span = child.span as usize;
        if span > end - 1 - low {
            return Siblings::Broken;
        }
        let next = end - 1 - span;
        if low < next && key_of(kind, child) <= key_of(kind, record_at(records, next - 1)) {
            found = Siblings::Late(end - 1);
        }
        end = next;
    }
    found
}

fn is_plain(kind: Kind, r: Record, count: usize, i: usize) -> bool {
    let shaped = match kind {
        Kind::Tree => (r.kind == 0 && r.span == 0) || (r.kind == 1 && r.span > 0),
        Kind::Refutation => (r.kind == 2 && r.span == 0) || r.kind == 3,
    };
    let unasked = r.answer == 0 && (kind == Kind::Tree || r.value == 0);
    shaped && r.gap == 0 && (i + 1 < count || (r.span as usize == i && unasked))
}

fn lowest_blamed(kind: Kind, records: &[u8], count: usize, i: usize) -> Option<usize> {
    let r = record_at(records, i);
    let span = r.span as usize;
    if span > i {
        return Some(i);
    }
    match stand_of(kind, records, i - span, i) {
        Siblings::Late(place) => Some(place),
        Siblings::Rising if is_plain(kind, r, count, i) => None,
        _ => Some(i),
    }
}

fn lowest_faulty(kind: Kind, records: &[u8], count: usize) -> Option<usize> {
    let mut lowest: Option<usize> = None;
    for i in 0..count {
        if let Some(p) = lowest_blamed(kind, records, count, i) {
            lowest = Some(lowest.map_or(p, |q| q.min(p)));
        }
    }
    lowest
}

fn judged(s: Sheet<'_>) -> Result<Kind, Fault> {
    let kind = match s.letter {
        b'T' => Kind::Tree,
        b'R' => Kind::Refutation,
        _ => return Err(refused(2)),
    };
    let count = s.records.len() / 12;
    if s.title.len() > 40 || s.records.len() != 12 * count || count < 1 || count > 1_048_576 {
        return Err(refused(3));
    }
    if s.title.iter().any(|b| !(32..=126).contains(b)) {
        return Err(refused(4));
    }
    let ranged = match kind {
        Kind::Tree => (1..=30).contains(&s.first) && (1..=491_520).contains(&s.second),
        Kind::Refutation => s.first <= 30 && s.second == 0,
    };
    if !ranged {
        return Err(refused(6));
    }
    match lowest_faulty(kind, s.records, count) {
        None => Ok(kind),
        Some(p) => Err(Fault { number: 7, place: Some(p as u32) }),
    }
}

fn read(file: &[u8]) -> Result<(Kind, Sheet<'_>), Fault> {
    if file.len() < 36 {
        return Err(refused(1));
    }
    let at = file.len() - 24;
    if !matches!(file[at], b'T' | b'R') || file[at + 1] != 1 {
        return Err(refused(2));
    }
    let title = two_at(file, at + 2) as usize;
    let count = four_at(file, at + 4) as usize;
    let distance = four_at(file, at + 16) as usize;
    if title > 40 || count < 1 || count > 1_048_576 || distance != 12 * count || file.len() != title + 12 * count + 24 {
        return Err(refused(3));
    }
    let sheet = Sheet {
        letter: file[at],
        title: &file[..title],
        records: &file[title..title + 12 * count],
        first: four_at(file, at + 8),
        second: four_at(file, at + 12),
        game: four_at(file, at + 20),
    };
    Ok((judged(sheet)?, sheet))
}

fn write(s: Sheet<'_>, out: &mut [u8]) -> Result<usize, Fault> {
    judged(s)?;
    let start = s.title.len();
    let end = start + s.records.len();
    if end + 24 > out.len() {
        return Err(refused(21));
    }
    let count = (s.records.len() / 12) as u32;
    let mut last = [0u8; 24];
    last[0] = s.letter;
    last[1] = 1;
    last[2..4].copy_from_slice(&(start as u16).to_be_bytes());
    last[4..8].copy_from_slice(&count.to_be_bytes());
    last[8..12].copy_from_slice(&s.first.to_be_bytes());
    last[12..16].copy_from_slice(&s.second.to_be_bytes());
    last[16..20].copy_from_slice(&(12 * count).to_be_bytes());
    last[20..24].copy_from_slice(&s.game.to_be_bytes());
    out[..start].copy_from_slice(s.title);
    out[start..end].copy_from_slice(s.records);
    out[end..end + 24].copy_from_slice(&last);
    Ok(end + 24)
}

fn groups(count: u32) -> Vec<u8> {
    let mut records = Vec::new();
    let mut put = |kind: u8, value: u32, span: u32| {
        records.extend_from_slice(&[kind, 0, 0, 0]);
        records.extend_from_slice(&value.to_be_bytes());
        records.extend_from_slice(&span.to_be_bytes());
    };
    for group in 0..count {
        for value in 0..9 {
            put(2, value, 0);
        }
        put(3, group, 9);
    }
    put(3, 0, count * 10);
    records
}

fn main() {
    let rounds: u32 = std::env::args().nth(1).map_or(1, |a| a.parse().unwrap());
    let records = groups(100_000);
    let sheet = Sheet { letter: b'R', title: b"a million records", records: &records, first: 3, second: 0, game: 1 };
    let mut file = vec![0u8; 12_000_053];
    let mut out = vec![0u8; 12_000_053];
    write(sheet, &mut file).unwrap();
    let start = Instant::now();
    let mut well = 0u64;
    for _ in 0..rounds {
        well += u64::from(read(black_box(&file)).unwrap().1.game);
    }
    let reading = start.elapsed().as_nanos();
    let again = Instant::now();
    let mut written = 0;
    for _ in 0..rounds {
        written += write(black_box(sheet), black_box(&mut out)).unwrap();
    }
    let writing = again.elapsed().as_nanos();
    eprintln!("{rounds} rounds of {} bytes; read {well}, {reading} ns; written {written}, {writing} ns", file.len());
}
