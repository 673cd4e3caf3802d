//! A yardstick for bench: the two data sets `contour` and `holes` of tools/timing-data, run by plain Rust without proofs.
//!
//!     rustc -O plain.rs
//!     plain RUNS < DATA           prints RUNS, the blocks that a run executes and the records that it makes
//!     plain list [ROOM] < DATA    writes the list of one run, in so many bytes; a refusal's number, block and byte go to
//!                                 standard error
//!
//! It has the rules of document 01, with document 02's #102, for `%`, openings, the words F G K M N R S X Y Z, the codes G00 G01 G17 G21 G54 G80 G81
//! G90 G91 G98 G99 and M03 M05 M30, and every refusal that can come of them, under setup T. It has no other code (refused as
//! unknown, 4), no comment, no slash and no CR (15), and calls no subprogram.
use std::hint::black_box;
use std::io::{self, Read, Write};

type Point = [i64; 3];
/// A refusal's number and byte; the block is the one at hand.
type Fault = (u8, usize);

struct Setup {
    low: Point,
    high: Point,
    start: Point,
    /// The common offset and the origin of G54 together.
    offset: Point,
    feed: i64,
    lowest: i64,
    highest: i64,
    speed: i64,
}

const T: Setup = Setup {
    low: [0, 0, -6_000_000],
    high: [20_000_000, 15_000_000, 0],
    start: [0, 0, 0],
    offset: [1_000_000, 1_000_000, -4_000_000],
    feed: 30_000_000,
    lowest: 3000,
    highest: 8000,
    speed: 5000,
};

/// A letter as one bit of a set.
const fn bit(letter: u8) -> u32 {
    1 << (letter - b'A')
}

const fn set(letters: &[u8]) -> u32 {
    let mut bits = 0;
    let mut i = 0;
    while i < letters.len() {
        bits |= bit(letters[i]);
        i += 1;
    }
    bits
}

const KNOWN: u32 = set(b"FGIJKMNPRSXYZ");
const ALWAYS: u32 = set(b"FGMNS");
const AXES: u32 = set(b"XYZ");

/// The byte at a place; past the end, the end of a block.
fn byte(data: &[u8], at: usize) -> u8 {
    data.get(at).copied().unwrap_or(b'\n')
}

struct Number {
    digits: i64,
    negative: bool,
    signed: bool,
    /// How many digits stand after the point, where one stands.
    decimals: Option<usize>,
    end: usize,
}

fn run_of_digits(data: &[u8], mut at: usize, mut value: i64) -> (usize, i64) {
    loop {
        let digit = byte(data, at).wrapping_sub(b'0');
        if digit > 9 {
            return (at, value);
        }
        value = value.wrapping_mul(10).wrapping_add(digit as i64);
        at += 1;
    }
}

fn number(data: &[u8], from: usize) -> Option<Number> {
    let sign = byte(data, from);
    let signed = sign == b'-' || sign == b'+';
    let begin = from + signed as usize;
    let (mut end, mut digits) = run_of_digits(data, begin, 0);
    let mut count = end - begin;
    let mut decimals = None;
    if byte(data, end) == b'.' {
        let point = end;
        (end, digits) = run_of_digits(data, point + 1, digits);
        if byte(data, end) == b'.' {
            return None;
        }
        count = end - begin - 1;
        decimals = Some(end - point - 1);
    }
    (1..=9).contains(&count).then_some(Number { digits, negative: sign == b'-', signed, decimals, end })
}

impl Number {
    /// A length in millimetres, or in 0.001 mm where no point stands.
    fn length(&self) -> Option<i64> {
        const SCALE: [i64; 4] = [100_000, 10_000, 1_000, 100];
        let size = self.digits * SCALE.get(self.decimals.unwrap_or(3))?;
        (size <= 1_000_000_000).then_some(if self.negative { -size } else { size })
    }

    fn plain(&self) -> Option<i64> {
        (!self.signed && self.decimals.is_none()).then_some(self.digits)
    }

    fn count(&self) -> Option<i64> {
        self.decimals.is_none().then_some(if self.negative { 0 } else { self.digits.min(9999) })
    }
}

#[derive(Clone, Copy, PartialEq)]
enum Motion {
    Off,
    Rapid,
    Cut,
    Drill,
}

/// The words of a block. A value means something only where its letter has been seen.
struct Words {
    seen: u32,
    values: [i64; 26],
    motion: Option<Motion>,
    absolute: Option<bool>,
    to_initial: Option<bool>,
    /// The groups of G codes seen, one bit each.
    groups: u8,
    m: i64,
    end: usize,
}

impl Words {
    fn has(&self, letters: u32) -> bool {
        self.seen & letters != 0
    }

    fn value(&self, letter: u8) -> i64 {
        self.values[(letter - b'A') as usize]
    }

    /// Whether a G code may stand here.
    fn take_code(&mut self, code: Option<i64>) -> bool {
        let group = match code {
            Some(0) => { self.motion = Some(Motion::Rapid); 1 }
            Some(1) => { self.motion = Some(Motion::Cut); 1 }
            Some(80) => { self.motion = Some(Motion::Off); 1 }
            Some(81) => { self.motion = Some(Motion::Drill); 1 }
            Some(17) => 2,
            Some(21) => 4,
            Some(n @ 90..=91) => { self.absolute = Some(n == 90); 8 }
            Some(54) => 16,
            Some(n @ 98..=99) => { self.to_initial = Some(n == 98); 32 }
            _ => return false,
        };
        let stands = self.groups & group == 0;
        self.groups |= group;
        stands
    }

    fn take_m(&mut self, code: Option<i64>) -> bool {
        self.m = code.unwrap_or(-1);
        matches!(self.m, 3 | 5 | 30)
    }
}

struct Run<'a> {
    setup: &'a Setup,
    list: &'a mut [u8],
    length: usize,
    records: usize,
    at: Point,
    motion: Motion,
    absolute: bool,
    to_initial: bool,
    feed: i64,
    speed: i64,
    turning: bool,
    /// The initial level of the cycle, and its Z and R as they were written, each with whether G90 was on.
    initial: i64,
    kept_z: Option<(i64, bool)>,
    kept_r: Option<(i64, bool)>,
}

impl Run<'_> {
    /// Reads a block's words and judges them: unreadable (15), may not stand (4), not used (2), bad value (1), in this order
    /// and each the leftmost.
    fn read(&self, data: &[u8], from: usize) -> Result<Words, Fault> {
        let mut words =
            Words { seen: 0, values: [0; 26], motion: None, absolute: None, to_initial: None, groups: 0, m: -1, end: from };
        let mut at = from;
        let mut unfit = None;
        let mut bad = 0;
        loop {
            let letter = byte(data, at);
            match letter {
                b'\n' => break,
                b' ' | b'\t' => {
                    at += 1;
                    continue;
                }
                b'A'..=b'Z' => (),
                _ => return Err((15, at)),
            }
            let number = number(data, at + 1).ok_or((15, at))?;
            let mut stands = KNOWN & bit(letter) != 0;
            let mut value = Some(0);
            match letter {
                b'G' => stands = words.take_code(number.plain()),
                b'X' | b'Y' | b'Z' | b'R' => value = number.length(),
                b'M' => stands = words.take_m(number.plain()),
                b'F' => value = number.length().filter(|&feed| feed > 0),
                b'S' => value = number.plain().filter(|speed| (self.setup.lowest..=self.setup.highest).contains(speed)),
                b'K' => value = number.count(),
                b'N' => value = number.plain(),
                _ => (),
            }
            if !stands || letter != b'G' && words.has(bit(letter)) {
                unfit = unfit.or(Some(at));
            }
            words.seen |= bit(letter);
            match value {
                Some(value) => words.values[(letter - b'A') as usize] = value,
                None => bad |= bit(letter),
            }
            at = number.end;
        }
        words.end = at;
        if let Some(place) = unfit {
            return Err((4, place));
        }
        let used = match words.motion.unwrap_or(self.motion) {
            Motion::Off => ALWAYS,
            Motion::Rapid | Motion::Cut => ALWAYS | AXES,
            Motion::Drill => ALWAYS | AXES | set(b"KR"),
        };
        for (fault, letters) in [(2, words.seen & !used), (1, bad)] {
            if letters != 0 {
                return Err((fault, leftmost(&data[from..at], letters) + from));
            }
        }
        Ok(words)
    }

    /// Executes a block; answers its end and whether it ends the program.
    fn block(&mut self, data: &[u8], from: usize) -> Result<(usize, bool), Fault> {
        let words = self.read(data, from)?;
        let drilled = self.motion == Motion::Drill;
        self.motion = words.motion.unwrap_or(self.motion);
        self.absolute = words.absolute.unwrap_or(self.absolute);
        if self.motion == Motion::Drill {
            self.keep(&words, drilled);
        }
        self.to_initial = words.to_initial.unwrap_or(self.to_initial);
        if words.has(bit(b'F')) {
            self.feed = words.value(b'F');
        }
        if words.has(bit(b'S')) {
            self.speed = words.value(b'S');
        }
        self.turning |= words.m == 3;
        let spindle = words.m == 3 || self.turning && words.has(bit(b'S'));
        // what the block writes beside its motion
        let beside = 6 * spindle as usize + 2 * matches!(words.m, 5 | 30) as usize;
        let drills = words.motion == Some(Motion::Drill) || self.motion == Motion::Drill && words.has(AXES | bit(b'R'));
        if drills {
            self.drill(&words, from, beside, spindle)?;
        } else {
            self.straight(&words, from, beside, spindle)?;
        }
        if words.m == 5 {
            self.turning = false;
            self.put(*b"SO", []);
        }
        if words.m == 30 {
            self.put(*b"EN", []);
        }
        Ok((words.end, words.m == 30))
    }

    /// What the cycle keeps: its words until it is off, and the Z before it was switched on.
    fn keep(&mut self, words: &Words, drilled: bool) {
        if !drilled {
            (self.initial, self.kept_z, self.kept_r) = (self.at[2], None, None);
        }
        if words.has(bit(b'Z')) {
            self.kept_z = Some((words.value(b'Z'), self.absolute));
        }
        if words.has(bit(b'R')) {
            self.kept_r = Some((words.value(b'R'), self.absolute));
        }
    }

    fn straight(&mut self, words: &Words, from: usize, beside: usize, spindle: bool) -> Result<(), Fault> {
        let moves = words.has(AXES);
        let cuts = self.motion == Motion::Cut;
        let end = [self.end(words, 0), self.end(words, 1), self.end(words, 2)];
        if !(self.inside(end, 0) && self.inside(end, 1) && self.inside(end, 2)) {
            return Err((9, from));
        }
        self.room(beside + moves as usize * if cuts { 18 } else { 14 }, from)?;
        self.put_spindle(spindle);
        self.at = end;
        if moves && cuts {
            self.put(*b"LN", [end[0], end[1], end[2], self.feed]);
        } else if moves {
            self.put(*b"RP", end);
        }
        Ok(())
    }

    fn drill(&mut self, words: &Words, from: usize, beside: usize, spindle: bool) -> Result<(), Fault> {
        if !self.turning {
            return Err((4, from));
        }
        let (initial, stood) = (self.initial, self.at[2]);
        let above = |level, kept: Option<(i64, bool)>| match kept {
            Some((value, absolute)) => value + if absolute { self.setup.offset[2] } else { level },
            None => level,
        };
        let r = above(initial, self.kept_r);
        let with_z = self.kept_z.is_some();
        let z = above(r, self.kept_z);
        if r > initial || z > r {
            return Err((1, from));
        }
        let passes = if words.has(bit(b'K')) { words.value(b'K') } else { 1 };
        let first = [self.end(words, 0), self.end(words, 1), z];
        let step = |axis| if self.absolute { 0 } else { first[axis] - self.at[axis] };
        let (dx, dy) = (step(0), step(1));
        let last = [first[0] + dx * (passes - 1), first[1] + dy * (passes - 1), r];
        // passes lie on a line and the levels between z and the initial one, so that two passes and two levels are enough
        let flat = |at| self.inside(at, 0) && self.inside(at, 1);
        let deep = !with_z || self.inside(first, 2) && self.inside(last, 2);
        if passes > 0 && !(flat(first) && flat(last) && deep) {
            return Err((9, from));
        }
        let size = if with_z { 60 } else { 14 };
        self.room(beside + passes as usize * size, from)?;
        self.put_spindle(spindle);
        let back = if !with_z { stood } else if self.to_initial { initial } else { r };
        for pass in 0..passes {
            let (x, y) = (first[0] + dx * pass, first[1] + dy * pass);
            self.put(*b"RP", [x, y, self.at[2]]);
            if with_z {
                self.put(*b"RP", [x, y, r]);
                self.put(*b"LN", [x, y, z, self.feed]);
                self.put(*b"RP", [x, y, back]);
            }
            self.at = [x, y, back];
        }
        Ok(())
    }

    /// Where an axis stands after the block's word for it.
    fn end(&self, words: &Words, axis: usize) -> i64 {
        let letter = b'X' + axis as u8;
        let base = if self.absolute { self.setup.offset[axis] } else { self.at[axis] };
        if words.has(bit(letter)) { base + words.value(letter) } else { self.at[axis] }
    }

    fn inside(&self, at: Point, axis: usize) -> bool {
        self.setup.low[axis] <= at[axis] && at[axis] <= self.setup.high[axis]
    }

    /// Whether all that a block writes fits the list.
    fn room(&self, size: usize, from: usize) -> Result<(), Fault> {
        if size <= self.list.len() - self.length { Ok(()) } else { Err((10, from)) }
    }

    fn put_spindle(&mut self, spindle: bool) {
        if spindle {
            self.put(*b"SP", [self.speed]);
        }
    }

    /// Every number fits four bytes: a point is inside the travel, and feed and speed are within their limits.
    fn put<const N: usize>(&mut self, mark: [u8; 2], numbers: [i64; N]) {
        let size = 2 + 4 * N;
        let record = &mut self.list[self.length..self.length + size];
        record[..2].copy_from_slice(&mark);
        for i in 0..N {
            record[2 + 4 * i..6 + 4 * i].copy_from_slice(&(numbers[i] as i32).to_le_bytes());
        }
        self.length += size;
        self.records += 1;
    }
}

#[cold]
fn leftmost(block: &[u8], letters: u32) -> usize {
    block.iter().position(|b| b.is_ascii_uppercase() && letters & bit(*b) != 0).unwrap_or(0)
}

/// Whether the block at a place is `%` alone, which ends the data.
fn closes(data: &[u8], at: usize) -> bool {
    byte(data, at) == b'%' && byte(data, at + 1) == b'\n'
}

/// An opening's number.
fn opened(block: &[u8]) -> Option<u32> {
    let digits = block[1..].iter().take_while(|b| b.is_ascii_digit()).count();
    let blank = block[1 + digits..].iter().all(|b| matches!(b, b' ' | b'\t'));
    let value = std::str::from_utf8(&block[1..1 + digits]).ok()?.parse().ok()?;
    (blank && digits <= 8 && (1..=9999).contains(&value)).then_some(value)
}

/// Judges the openings of all programs before any block is executed. Data without an `O` has none.
fn openings(data: &[u8]) -> Result<(), (u8, usize, usize)> {
    if data.len() < 2 || !data.contains(&b'O') {
        return Ok(());
    }
    let mut numbers = Vec::with_capacity(12);
    let mut subprograms = 0;
    let mut at = 2;
    for (i, block) in data[2..].split(|&b| b == b'\n').enumerate() {
        if block == b"%" {
            break;
        }
        if block.first() == Some(&b'O') {
            let refused = |number| (number, i + 2, at);
            let number = opened(block).ok_or(refused(1))?;
            if numbers.contains(&number) {
                return Err(refused(8));
            }
            numbers.push(number);
            subprograms += (i != 0) as usize;
            if subprograms > 10 {
                return Err(refused(7));
            }
        }
        at += block.len() + 1;
    }
    Ok(())
}

struct Outcome {
    blocks: usize,
    records: usize,
    length: usize,
    /// A refusal's number, block and byte.
    refusal: Option<(u8, usize, usize)>,
}

fn run(setup: &Setup, data: &[u8], list: &mut [u8]) -> Outcome {
    let before = |refusal| Outcome { blocks: 0, records: 0, length: 0, refusal: Some(refusal) };
    if data.len() > 65_535 {
        return before((13, 0, 0));
    }
    if data.is_empty() || !closes(data, 0) {
        return before((11, 1, 0));
    }
    if let Err(refusal) = openings(data) {
        return before(refusal);
    }
    let mut run = Run {
        setup,
        list,
        length: 0,
        records: 0,
        at: setup.start,
        motion: Motion::Off,
        absolute: true,
        to_initial: true,
        feed: setup.feed,
        speed: setup.speed,
        turning: false,
        initial: 0,
        kept_z: None,
        kept_r: None,
    };
    let (mut at, mut number, mut blocks) = (2, 2, 0);
    if byte(data, at) == b'O' {
        at += data[at..].iter().position(|&b| b == b'\n').map_or(data.len(), |n| n + 1);
        number += 1;
    }
    let refusal = loop {
        blocks += 1;
        if at >= data.len() {
            break Some((14, number, data.len()));
        }
        if byte(data, at) == b'O' || closes(data, at) {
            break Some((14, number, at));
        }
        match run.block(data, at) {
            Err((fault, place)) => break Some((fault, number, place)),
            Ok((_, true)) => break None,
            Ok((end, false)) => at = end + 1,
        }
        number += 1;
    };
    Outcome { blocks, records: run.records, length: run.length, refusal }
}

fn main() -> io::Result<()> {
    let word = std::env::args().nth(1).unwrap_or_default();
    let mut data = Vec::new();
    io::stdin().read_to_end(&mut data)?;
    let room = std::env::args().nth(2).and_then(|word| word.parse().ok()).unwrap_or(1 << 20);
    let mut list = vec![0; room];
    if word == "list" {
        let outcome = run(&T, &data, &mut list);
        if let Some((number, block, byte)) = outcome.refusal {
            eprintln!("refused {number} {block} {byte}");
        }
        return io::stdout().write_all(&list[..outcome.length]);
    }
    let Ok(runs) = word.parse::<u64>() else {
        eprintln!("plain: wants a number of runs, or `list`");
        std::process::exit(1);
    };
    let blocks = run(&T, &data, &mut list).blocks;
    let mut records = 0;
    for _ in 0..runs {
        records = run(black_box(&T), black_box(&data), black_box(&mut list)).records;
    }
    println!("{runs} {blocks} {records}");
    Ok(())
}
