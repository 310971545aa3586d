//! Compares random sessions of the program months with tests/months_model.rs; before that, the model with the sessions in tests/months, which are written by
//! hand.
//!
//!     months SESSIONS SEED PROGRAM WORD..
//!
//! runs PROGRAM once for each session. It prints what was compared, and ends with status 1 at the first difference.

#[allow(dead_code)]
mod model;
mod months_model;
mod random;

use model::Times;
use months_model::Session;
use random::Random;
use std::io::{Read, Write};
use std::process::{Command, Stdio};

const FOLDER: &str = "tests/months";

#[rustfmt::skip]
const ODD_YEARS: [&str; 12] = ["year 1599", "year 10000", "year 999", "year 2o24", "year  2024", "year 2024 ", "marks 2", "", "end", "2024", "year", "Year 2024"];

#[rustfmt::skip]
const ODD_MARKS: [&str; 12] = ["marks 0", "marks 6", "marks 9", "marks 22", "marks", "marks x", "end", "", "in 01", "year 2024", "marks 2 ", "2024-01-01 in 01"];

#[rustfmt::skip]
const ODD_LINES: [&str; 16] = ["", " ", "marks 2", "year 2024", "2024-01-01", "2024-01-01 end", "2024-01-01 marks 2", "end ", " end", "END", "in", "2024-01-01 in",
    "2024-13-45 in 2x", "total", "recv 01 1:00 2024-01-01", "a line of more than forty bytes, one of them its last"];

/// Times that are nearly hours, and the most of them.
#[rustfmt::skip]
const ODD_HOURS: [&str; 18] = ["0:00:00", "0:30:00", "10:00:00", "1:30:", "1:30:0", "1:30:6", "1:30:60", "1:60:00", "1:3:00", "1:00:000", "1:00:00:", "01:00:00",
    ":30:00", "1::30:00", "1:30::00", "1:30:00x", "599:59:59", "9:59:59"];

struct Sessions {
    r: Random,
    marks: u64,
    year: u64,
    month: u64,
    day: u64,
}

impl Sessions {
    fn pattern(&mut self) -> String {
        let n = if self.r.one_in(40) { self.r.below(7) } else { self.marks };
        (0..n).map(|_| self.r.of(&['0', '1'])).collect()
    }

    fn time(&mut self) -> String {
        match self.r.below(32) {
            0 => "0:00".to_string(),
            1 => self.r.of(&["600:00", "1:60", "1:5", "01:05", ":05", "1:05x", "-1:05", "599:59", "0:01"]).to_string(),
            2 => self.r.of(&ODD_HOURS).to_string(),
            3..=7 => format!("{}:{:02}", self.r.below(600), self.r.below(60)),
            8..=14 => format!("{}:{:02}:{:02}", 1 + self.r.below(9), self.r.below(60), self.r.below(60)),
            15..=18 => format!("1:00:{:02}", self.r.below(60)),
            19..=21 => format!("60:{:02}", self.r.below(60)),
            _ => format!("{}:{:02}", self.r.below(3), self.r.below(60)),
        }
    }

    fn change(&mut self) -> String {
        let verb = self.r.of(&["in", "out", "recv", "recv", "recv", "gone"]);
        let pattern = self.pattern();
        match verb {
            "in" | "out" => format!("{verb} {pattern}"),
            _ => format!("{verb} {pattern} {}", self.time()),
        }
    }

    /// Mostly the date at hand, which goes on by some days; any day up to the 31st, so that some do not exist.
    fn date(&mut self) -> String {
        if self.r.one_in(2) {
            self.day += self.r.of(&[1, 1, 2, 5, 9, 20]);
        }
        if self.day > 31 {
            self.day -= 31;
            self.month += 1;
        }
        let (mut year, mut month, mut day) = (self.year, self.month, self.day);
        match self.r.below(24) {
            0 => day = self.r.of(&[0, 28, 29, 30, 31, 32, 99]),
            1 => month = self.r.below(14),
            2 => day = 1 + self.r.below(31),
            3 => year = self.r.of(&[self.year - 1, self.year + 1, 0, 2024]) % 10_000,
            4 => (month, day) = (2, self.r.of(&[28, 29, 30])),
            _ => {}
        }
        match self.r.below(40) {
            0 => format!("{year}/{month:02}/{day:02}"),
            1 => format!("{year}-{month}-{day}"),
            _ => format!("{year:04}-{month:02}-{day:02}"),
        }
    }

    /// A byte more, a byte fewer or another one.
    fn damage(&mut self, line: &mut Vec<u8>) {
        let i = self.r.below(line.len() as u64 + 1) as usize;
        let sign = self.r.of(b"01239-: \t\r\0inoutrecvgone\xff");
        match self.r.below(3) {
            0 => line.insert(i, sign),
            _ if i == line.len() => line.push(sign),
            1 => line[i] = sign,
            _ => {
                line.remove(i);
            }
        }
    }

    /// A line, or any bytes, in which there may be newlines.
    fn line(&mut self, dated: bool) -> Vec<u8> {
        if self.r.one_in(100) {
            let n = self.r.below(60);
            return self.r.bytes(n);
        }
        let mut line = match self.r.below(24) {
            0 => self.r.of(&ODD_LINES).to_string(),
            1 | 2 if dated => self.change(),
            _ if dated => [self.date(), self.change()].join(" "),
            _ => self.change(),
        };
        if self.r.one_in(100) {
            line += &" ".repeat(self.r.of(&[1, 20, 30, 5000]));
        }
        let mut line = line.into_bytes();
        if self.r.one_in(30) {
            self.damage(&mut line);
        }
        line
    }

    fn opening(&mut self) -> [Vec<u8>; 2] {
        let year = if self.r.one_in(30) { self.r.of(&ODD_YEARS).to_string() } else { format!("year {}", self.year) };
        let marks = if self.r.one_in(30) { self.r.of(&ODD_MARKS).to_string() } else { format!("marks {}", self.marks) };
        [year.into_bytes(), marks.into_bytes()]
    }

    /// The bytes of a session: a year, a stock, dated lines, and mostly `end`, behind which may be more.
    fn session(&mut self) -> Vec<u8> {
        let any = 1600 + self.r.below(8400);
        self.year = self.r.of(&[1600, 1700, 1900, 2000, 2023, 2024, 2400, 9999, any, any]);
        self.marks = self.r.of(&[1, 1, 2, 2, 3, 5]);
        (self.month, self.day) = (self.r.of(&[1, 1, 1, 2, 6, 11]), 1 + self.r.below(31));
        let mut lines = self.opening().to_vec();
        for _ in 0..self.r.below(8) {
            lines.push(self.line(false));
        }
        for _ in 0..self.r.of(&[0, 5, 20, 40, 60]) {
            lines.push(self.line(true));
        }
        if !self.r.one_in(4) {
            lines.push(b"end".to_vec());
        }
        for _ in 0..self.r.of(&[0, 0, 0, 3]) {
            lines.push(self.line(true));
        }
        if self.r.one_in(12) {
            lines.truncate(self.r.below(4) as usize);
        }
        let mut input = lines.join(&b'\n');
        if !self.r.one_in(6) && !lines.is_empty() {
            input.push(b'\n');
        }
        input
    }
}

fn stop(why: &str) -> ! {
    println!("{why}");
    std::process::exit(1)
}

/// The model prints what the sessions in the folder are to print.
fn by_hand(times: &Times) -> usize {
    let files = std::fs::read_dir(FOLDER).expect("the folder of sessions").map(|entry| entry.unwrap().path());
    let inputs: Vec<_> = files.filter(|path| path.extension().is_some_and(|e| e == "in")).collect();
    for path in &inputs {
        let wanted = std::fs::read_to_string(path.with_extension("out")).expect("what a session prints");
        let printed = Session::of(&std::fs::read(path).expect("a session"), times).output;
        if printed != wanted {
            stop(&format!("the model on {}:\n{printed}and not\n{wanted}", path.display()));
        }
    }
    inputs.len()
}

/// What the program prints. It may end before its input does.
fn run(words: &[String], input: &[u8]) -> Vec<u8> {
    let mut child = Command::new(&words[0]).args(&words[1..]).stdin(Stdio::piped()).stdout(Stdio::piped()).spawn().expect("the program starts");
    let _ = child.stdin.take().unwrap().write_all(input);
    let mut output = Vec::new();
    child.stdout.take().unwrap().read_to_end(&mut output).expect("the program's output");
    if !child.wait().is_ok_and(|status| status.success()) {
        stop(&format!("the program ended badly on\n{}", String::from_utf8_lossy(input)));
    }
    output
}

fn main() {
    let words: Vec<String> = std::env::args().collect();
    if words.len() < 4 {
        stop("months SESSIONS SEED PROGRAM WORD..");
    }
    let count: u64 = words[1].parse().expect("a number of sessions");
    let seed: u64 = words[2].parse().expect("a seed");
    let times = Times::new();
    let written = by_hand(&times);
    let mut sessions = Sessions { r: Random::new(seed), marks: 1, year: 1600, month: 1, day: 1 };
    let mut answers = [0u64; 12];
    for k in 1..=count {
        let input = sessions.session();
        let wanted = Session::of(&input, &times);
        let output = run(&words[3..], &input);
        if output != wanted.output.as_bytes() {
            let [input, output] = [&input, &output].map(|bytes| String::from_utf8_lossy(bytes));
            stop(&format!("session {k} differs (seed {seed}):\n{input}\nprints\n{output}and not\n{}", wanted.output));
        }
        wanted.answers.iter().for_each(|&a| answers[a as usize] += 1);
    }
    let given: Vec<String> = (0..12).filter(|&a| answers[a] > 0).map(|a| format!("{a}: {}", answers[a])).collect();
    println!("months: {} lines, by answer {}", answers.iter().sum::<u64>(), given.join(", "));
    println!("months: the model on {written} written sessions, and {count} random sessions compared with it, no difference (seed {seed})");
}
