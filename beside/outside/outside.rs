// A reader of books that shares nothing with the proved one: it is written from the description of the format alone, and
// in another style, so that the two can be held against each other.
//
//   outside cases        reads case lines from standard input, and prints the answer that each should get
//   outside book FILE    prints what the program should print for that file, and ends with status 1 for a refused book
//
// Build it with `rustc -O`, to a folder outside the repository.
use std::collections::{BTreeSet, HashMap};
use std::io::{self, Read, Write};
use std::process::exit;

const MOST_BYTES: usize = 65_535;

// The number of a refusal and its place.
type Fault = (u8, usize);

struct Book {
    activities: usize,
    pairs: usize,
    resources: usize,
    text: String,
}

// A line cut at its single spaces: the first piece and the numbers after it, or nothing where a piece is no number.
fn pieces(line: &str) -> Option<(&str, Vec<u32>)> {
    let mut words = line.split(' ');
    let head = words.next()?;
    let numbers: Option<Vec<u32>> = words.map(number).collect();
    Some((head, numbers?))
}

fn number(word: &str) -> Option<u32> {
    let right = (1..=5).contains(&word.len())
        && word.chars().all(|c| c.is_ascii_digit())
        && (word == "0" || !word.starts_with('0'));
    if right { word.parse().ok() } else { None }
}

// The place of the trailer, where the body starts, and how many lines the trailer counts.
fn frame(bytes: &[u8]) -> Option<(usize, usize, usize)> {
    if bytes.len() > MOST_BYTES {
        return None;
    }
    let unended = bytes.strip_suffix(b"\n")?;
    let trailer = unended.iter().rposition(|b| *b == b'\n').map_or(0, |i| i + 1);
    let words = String::from_utf8_lossy(&unended[trailer..]).into_owned();
    let (start, count) = match pieces(&words)? {
        ("Z", numbers) if numbers.len() == 2 => (numbers[0] as usize, numbers[1] as usize),
        _ => return None,
    };
    let begins_line = start == 0 || bytes.get(start - 1) == Some(&b'\n');
    if start <= trailer && begins_line { Some((trailer, start, count)) } else { None }
}

// What has been read of the body so far.
#[derive(Default)]
struct Seen {
    capacities: Option<Vec<u32>>,
    activities: usize,
    pairs: BTreeSet<(String, u32, u32)>,
    alternatives: HashMap<u32, usize>,
}

impl Seen {
    // The number of the refusal of a line, or 0 where the line is right, which is then counted in.
    fn refusal(&mut self, line: &str, rooms: (usize, usize)) -> u8 {
        let Some((head, numbers)) = pieces(line) else {
            return 2;
        };
        let resources = self.capacities.as_ref().map_or(0, |c| c.len());
        let right_length = match head {
            "C" => numbers.len() <= 4,
            "J" => numbers.len() == 1 + resources,
            "A" | "O" | "B" | "Z" => numbers.len() == 2,
            _ => false,
        };
        if !right_length {
            return 2;
        }
        if self.misplaced(head) {
            return 3;
        }
        match head {
            "C" => self.take_capacities(numbers),
            "J" => self.take_activity(&numbers, rooms.0),
            _ => self.take_pair(head, numbers[0], numbers[1], rooms.1),
        }
    }

    fn misplaced(&self, head: &str) -> bool {
        match head {
            "Z" => true,
            "C" => self.capacities.is_some(),
            "J" => self.capacities.is_none() || !self.pairs.is_empty(),
            _ => self.capacities.is_none(),
        }
    }

    fn take_capacities(&mut self, numbers: Vec<u32>) -> u8 {
        if numbers.iter().any(|c| *c > 50) {
            return 4;
        }
        self.capacities = Some(numbers);
        0
    }

    fn take_activity(&mut self, numbers: &[u32], room: usize) -> u8 {
        let limits = self.capacities.iter().flatten().copied();
        if numbers[0] > 60 || numbers[1..].iter().zip(limits).any(|(d, c)| *d > c) {
            return 4;
        }
        if self.activities == room.min(62) {
            return 6;
        }
        self.activities += 1;
        0
    }

    fn take_pair(&mut self, letter: &str, first: u32, second: u32, room: usize) -> u8 {
        let known = 1..=self.activities as u32;
        let pair = (letter.to_string(), first, second);
        let alternatives = self.alternatives.get(&second).copied().unwrap_or(0);
        if !known.contains(&first)
            || !known.contains(&second)
            || first >= second
            || self.pairs.contains(&pair)
            || (letter == "O" && alternatives == 8)
        {
            return 5;
        }
        if self.pairs.len() == room.min(256) {
            return 6;
        }
        if letter == "O" {
            self.alternatives.insert(second, alternatives + 1);
        }
        self.pairs.insert(pair);
        0
    }
}

// Reads a book into tables of the given lengths.
fn read(bytes: &[u8], rooms: (usize, usize)) -> Result<Book, Fault> {
    let (trailer, start, count) = frame(bytes).ok_or((1, 0))?;
    let body = &bytes[start..trailer];
    let mut seen = Seen::default();
    let mut place = start;
    let mut lines = 0;
    for line in body.split_inclusive(|b| *b == b'\n') {
        let unended = String::from_utf8_lossy(&line[..line.len() - 1]).into_owned();
        match seen.refusal(&unended, rooms) {
            0 => lines += 1,
            refusal => return Err((refusal, place)),
        }
        place += line.len();
    }
    if lines != count || seen.activities == 0 {
        return Err((7, trailer));
    }
    // Each number has one form only, so the lines of the body are as they are written anew.
    let text = format!("{}Z 0 {count}\n", String::from_utf8_lossy(body));
    Ok(Book {
        activities: seen.activities,
        pairs: seen.pairs.len(),
        resources: seen.capacities.map_or(0, |c| c.len()),
        text,
    })
}

// The bytes that the text of a case stands for.
fn unpack(text: &str) -> Vec<u8> {
    let mut bytes = Vec::new();
    let mut rest = text;
    while !rest.is_empty() {
        let (times, item) = match rest.strip_prefix('*') {
            Some(run) => {
                let (times, item) = run.split_once(':').expect("a run has a colon");
                (times.parse().expect("a run has a count"), item)
            }
            None => (1, rest),
        };
        let (byte, length) = match item.as_bytes()[0] {
            b'|' => (b'\n', 1),
            b'\\' => (u8::from_str_radix(&item[1..3], 16).expect("two hexadecimal digits"), 3),
            byte => (byte, 1),
        };
        bytes.extend(std::iter::repeat_n(byte, times));
        rest = &item[length..];
    }
    bytes
}

fn answer(case: &str) -> String {
    let mut parts = case.splitn(3, ' ');
    let mut length = || parts.next().and_then(|w| w.parse::<usize>().ok()).expect("a table's length");
    let rooms = (length(), length());
    let text = parts.next().expect("a text");
    match read(&unpack(text), rooms) {
        Ok(book) => {
            let text = book.text.replace('\n', "|");
            format!("ok {} {} {} {text} rest-kept", book.activities, book.pairs, book.resources)
        }
        Err((refusal, place)) => format!("refused {refusal} at {place} blank"),
    }
}

fn answer_cases() -> io::Result<()> {
    let mut cases = String::new();
    io::stdin().read_to_string(&mut cases)?;
    let mut out = io::stdout().lock();
    for line in cases.lines() {
        if line.starts_with('#') {
            writeln!(out, "{line}")?;
        } else {
            writeln!(out, "{}", answer(line))?;
        }
    }
    Ok(())
}

fn answer_book(name: &str) -> io::Result<()> {
    match read(&std::fs::read(name)?, (62, 256)) {
        Ok(book) => print!("{}", book.text),
        Err((refusal, place)) => {
            println!("refused {refusal} at {place}");
            exit(1);
        }
    }
    Ok(())
}

fn main() -> io::Result<()> {
    let words: Vec<String> = std::env::args().skip(1).collect();
    match words.iter().map(String::as_str).collect::<Vec<_>>()[..] {
        ["cases"] => answer_cases(),
        ["book", name] => answer_book(name),
        _ => {
            eprintln!("outside cases | outside book FILE");
            exit(2);
        }
    }
}
