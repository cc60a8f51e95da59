// The work of crates/tree_bench in plain Rust: rustc -C opt-level=3 -o tree_rs bench/tree.rs
// tree_rs N FILE PEGS COLOURS r|n GAME judges a tree for a game of pegs N times.

use std::hint::black_box;
use std::time::Instant;

#[derive(Clone, Copy, Debug, PartialEq)]
enum Place {
    Nowhere,
    Record(usize),
    Code(u32),
}

#[derive(Clone, Copy, Debug)]
#[allow(dead_code)]
struct Fault {
    number: u32,
    place: Place,
}

#[derive(Clone, Copy)]
struct Record {
    kind: u8,
    answer: u8,
    gap: u16,
    value: u32,
    span: u32,
}

#[derive(Clone, Copy)]
struct Sheet<'a> {
    records: &'a [u8],
    count: usize,
    first: u32,
    second: u32,
}

enum Siblings {
    Broken,
    Rising,
    Late(usize),
}

fn refused(number: u32) -> Fault {
    Fault { number, place: Place::Nowhere }
}

fn two_at(b: &[u8], at: usize) -> u16 {
    u16::from_be_bytes([b[at], b[at + 1]])
}

fn four_at(b: &[u8], at: usize) -> u32 {
    u32::from_be_bytes([b[at], b[at + 1], b[at + 2], b[at + 3]])
}

fn record_at(records: &[u8], i: usize) -> Record {
    let r = &records[12 * i..12 * i + 12];
    Record { kind: r[0], answer: r[1], gap: two_at(r, 2), value: four_at(r, 4), span: four_at(r, 8) }
}

// A rule

trait AnswerRule {
    fn is_naming(&self) -> bool;
    fn answers(&self) -> u8;
    fn code_bound(&self) -> u32;
    fn is_code(&self, n: u32) -> bool;
    fn admits(&self, n: u32) -> bool;
    fn answer(&self, code: u32, guess: u32) -> u8;
}

struct Pegs {
    pegs: usize,
    colours: u32,
    repeats: bool,
}

impl Pegs {
    fn digits(&self, n: u32) -> [u8; 6] {
        let mut row = [0u8; 6];
        let mut rest = n;
        for i in (0..self.pegs).rev() {
            row[i] = (rest % self.colours) as u8;
            rest /= self.colours;
        }
        row
    }

    fn counts(&self, row: &[u8; 6]) -> [u32; 10] {
        let mut counts = [0u32; 10];
        for i in 0..self.pegs {
            counts[row[i] as usize] += 1;
        }
        counts
    }

    fn is_row(&self, n: u32) -> bool {
        n < self.colours.pow(self.pegs as u32)
            && (self.repeats || self.counts(&self.digits(n)).iter().all(|count| *count <= 1))
    }

    fn place_of(&self, black: u32, white: u32) -> u8 {
        let pegs = self.pegs as u32;
        (black * (2 * pegs + 3 - black) / 2 + white - u32::from(black == pegs)) as u8
    }
}

impl AnswerRule for Pegs {
    fn is_naming(&self) -> bool {
        true
    }

    fn answers(&self) -> u8 {
        self.place_of(self.pegs as u32, 0) + 1
    }

    fn code_bound(&self) -> u32 {
        self.colours.pow(self.pegs as u32)
    }

    fn is_code(&self, n: u32) -> bool {
        self.is_row(n)
    }

    fn admits(&self, n: u32) -> bool {
        self.is_row(n)
    }

    fn answer(&self, code: u32, guess: u32) -> u8 {
        if !self.is_row(code) || !self.is_row(guess) {
            return self.answers();
        }
        let (hidden, asked) = (self.digits(code), self.digits(guess));
        let (here, there) = (self.counts(&hidden), self.counts(&asked));
        let black = (0..self.pegs).filter(|i| hidden[*i] == asked[*i]).count() as u32;
        let pairs: u32 = (0..10).map(|colour| here[colour].min(there[colour])).sum();
        self.place_of(black, pairs - black)
    }
}

// The form of a tree

fn stand_of(records: &[u8], low: usize, i: usize) -> Siblings {
    let mut end = i;
    let mut found = Siblings::Rising;
    while low < end {
        let child = record_at(records, end - 1);
        let span = child.span as usize;
        if span > end - 1 - low {
            return Siblings::Broken;
        }
        let next = end - 1 - span;
        if low < next && child.answer <= record_at(records, next - 1).answer {
            found = Siblings::Late(end - 1);
        }
        end = next;
    }
    found
}

fn is_plain(r: Record, count: usize, i: usize) -> bool {
    let shaped = (r.kind == 0 && r.span == 0) || (r.kind == 1 && r.span > 0);
    shaped && r.gap == 0 && (i + 1 < count || (r.span as usize == i && r.answer == 0))
}

fn lowest_blamed(records: &[u8], count: usize, i: usize) -> Option<usize> {
    let r = record_at(records, i);
    let span = r.span as usize;
    if span > i {
        return Some(i);
    }
    match stand_of(records, i - span, i) {
        Siblings::Late(place) => Some(place),
        Siblings::Rising if is_plain(r, count, i) => None,
        _ => Some(i),
    }
}

fn read_for(file: &[u8], game: u32) -> Result<Sheet<'_>, Fault> {
    if file.len() < 36 {
        return Err(refused(1));
    }
    let at = file.len() - 24;
    if file[at] != b'T' || file[at + 1] != 1 {
        return Err(refused(2));
    }
    let title = two_at(file, at + 2) as usize;
    let count = four_at(file, at + 4) as usize;
    let distance = four_at(file, at + 16) as usize;
    if title > 40 || count < 1 || count > 1_048_576 || distance != 12 * count || file.len() != title + 12 * count + 24 {
        return Err(refused(3));
    }
    if file[..title].iter().any(|b| !(32..=126).contains(b)) {
        return Err(refused(4));
    }
    if four_at(file, at + 20) != game {
        return Err(refused(5));
    }
    let (first, second) = (four_at(file, at + 8), four_at(file, at + 12));
    if !(1..=30).contains(&first) || !(1..=491_520).contains(&second) {
        return Err(refused(6));
    }
    let records = &file[title..title + 12 * count];
    match (0..count).filter_map(|i| lowest_blamed(records, count, i)).min() {
        None => Ok(Sheet { records, count, first, second }),
        Some(place) => Err(Fault { number: 7, place: Place::Record(place) }),
    }
}

// The play

fn suits<R: AnswerRule>(rule: &R, r: Record) -> bool {
    r.answer < rule.answers() && if r.kind == 0 { rule.is_code(r.value) } else { rule.admits(r.value) }
}

fn child_for(records: &[u8], at: usize, span: usize, answer: u8) -> Option<usize> {
    let low = at - span;
    let mut end = at;
    while low < end {
        let child = record_at(records, end - 1);
        if child.answer == answer {
            return Some(end - 1);
        }
        end -= 1 + child.span as usize;
    }
    None
}

// Where a code's play ends, and after how many guesses; or the number of its fault.
fn play<R: AnswerRule>(rule: &R, sheet: Sheet<'_>, code: u32) -> Result<(usize, u32), u32> {
    let mut at = sheet.count - 1;
    let mut asked = 0;
    let mut won = false;
    loop {
        let r = record_at(sheet.records, at);
        if r.kind == 0 {
            let good = r.value == code && (won || !rule.is_naming());
            return if good { Ok((at, asked)) } else { Err(10) };
        }
        if won || asked == 30 {
            return Err(10);
        }
        let answer = rule.answer(code, r.value);
        at = child_for(sheet.records, at, r.span as usize, answer).ok_or(9u32)?;
        won = rule.is_naming() && answer == rule.answers() - 1;
        asked += 1;
    }
}

fn judged<R: AnswerRule>(rule: &R, file: &[u8], game: u32) -> Result<(u32, u32), Fault> {
    let sheet = read_for(file, game)?;
    for i in 0..sheet.count {
        if !suits(rule, record_at(sheet.records, i)) {
            return Err(Fault { number: 8, place: Place::Record(i) });
        }
    }
    let (mut worst, mut sum) = (0, 0);
    for code in 0..rule.code_bound() {
        if rule.is_code(code) {
            let (_, asked) = play(rule, sheet, code).map_err(|number| Fault { number, place: Place::Code(code) })?;
            worst = worst.max(asked);
            sum += asked;
        }
    }
    for i in 0..sheet.count {
        let r = record_at(sheet.records, i);
        if r.kind == 0 && play(rule, sheet, r.value).map(|(end, _)| end) != Ok(i) {
            return Err(Fault { number: 11, place: Place::Record(i) });
        }
    }
    if sheet.first != worst || sheet.second != sum {
        return Err(refused(12));
    }
    Ok((worst, sum))
}

fn main() {
    let words: Vec<String> = std::env::args().collect();
    if words.len() != 7 {
        eprintln!("usage: tree_rs N FILE PEGS COLOURS r|n GAME");
        std::process::exit(2);
    }
    let rounds: u32 = words[1].parse().unwrap();
    let file = std::fs::read(&words[2]).unwrap();
    let rule = Pegs { pegs: words[3].parse().unwrap(), colours: words[4].parse().unwrap(), repeats: words[5] == "r" };
    let game: u32 = words[6].parse().unwrap();
    let start = Instant::now();
    let mut last = Err(refused(0));
    for _ in 0..rounds {
        last = black_box(judged(black_box(&rule), black_box(&file), game));
    }
    let time = start.elapsed().as_nanos();
    match last {
        Ok((worst, sum)) => eprintln!("{rounds} rounds of {} bytes; worst {worst}, sum {sum}; {time} ns", file.len()),
        Err(fault) => eprintln!("{rounds} rounds of {} bytes; {fault:?}; {time} ns", file.len()),
    }
}
