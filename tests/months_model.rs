//! What the program months prints, written a second time, for the tests alone: by the rules, and by other means than the program's wherever there are any.
//! The days of the year stand in a set, dates are compared as texts, and the total of a month is that of a new sheet on which all changes up to it are made again.

use crate::model::{Reply, Sheet, Standing, Times};
use std::collections::HashSet;

/// A line has at most so many bytes.
const MOST_BYTES: usize = 40;

/// Seconds of a change to the class, which has none, are 0. In the stock the date is empty, and so before every other.
struct Change {
    date: String,
    verb: String,
    combination: u64,
    seconds: u64,
}

impl Change {
    fn make(&self, sheet: &mut Sheet) -> Result<(), Reply> {
        match self.verb.as_str() {
            "in" => sheet.change(self.combination, Standing::In),
            "out" => sheet.change(self.combination, Standing::Out),
            "recv" => sheet.receive(self.combination, self.seconds),
            _ => sheet.withdraw(self.combination, self.seconds),
        }
    }
}

/// A session behind some of its lines: what they have printed, and the answer of each.
pub struct Session<'a> {
    times: &'a Times,
    year: u64,
    days: HashSet<String>,
    sheet: Option<Sheet>,
    begun: bool,
    last: String,
    made: Vec<Change>,
    over: bool,
    pub answers: Vec<u64>,
    pub output: String,
}

/// The days before a year, as the calendar has counted them from the year 0 on.
fn days_before(year: u64) -> u64 {
    let past = year - 1;
    365 * year + past / 4 - past / 100 + past / 400
}

/// All the days of a year. February has what the other months, 337 days together, leave.
fn days_of(year: u64) -> HashSet<String> {
    let february = days_before(year + 1) - days_before(year) - 337;
    let lengths = [31, february, 31, 30, 31, 30, 31, 31, 30, 31, 30, 31];
    let dates = (1..).zip(lengths).flat_map(|(month, n)| (1..=n).map(move |day| format!("{year}-{month:02}-{day:02}")));
    dates.collect()
}

/// The date in front of a line, and what stands behind its space, if it has the form of one.
fn split_date(line: &str) -> Option<(&str, &str)> {
    let (date, rest) = line.split_once(' ')?;
    let form: String = date.chars().map(|c| if c.is_ascii_digit() { '0' } else { c }).collect();
    (form == "0000-00-00").then_some((date, rest))
}

impl<'a> Session<'a> {
    /// The whole session of an input.
    pub fn of(input: &[u8], times: &'a Times) -> Session<'a> {
        let (days, sheet, last) = (HashSet::new(), None, String::new());
        let (made, answers, output) = (Vec::new(), Vec::new(), String::new());
        let mut session = Session { times, year: 0, days, sheet, begun: false, last, made, over: false, answers, output };
        let mut lines: Vec<&[u8]> = input.split(|&b| b == b'\n').collect();
        let behind = lines.pop().unwrap_or_default();
        for line in lines {
            session.line(if line.len() > MOST_BYTES { None } else { std::str::from_utf8(line).ok() });
        }
        if !behind.is_empty() {
            session.line(None);
        }
        session.end();
        session
    }

    /// A line, or none where its bytes are none.
    fn line(&mut self, line: Option<&str>) {
        if self.over {
            return;
        }
        let place = self.answers.len() + 1;
        let answer = match (line, place) {
            (None, _) => Err(10),
            (Some(line), 1) => self.first(line),
            (Some(line), 2) => self.second(line),
            (Some("end"), _) => {
                self.end();
                Ok(())
            }
            (Some(line), _) => self.later(line),
        };
        if let Err(number) = answer {
            self.output += &format!("refused {place} {number}\n");
            self.over = place <= 2;
        }
        self.answers.push(answer.err().unwrap_or(0));
    }

    fn first(&mut self, line: &str) -> Result<(), u64> {
        self.year = (1600..10_000).find(|y| line == format!("year {y}")).ok_or(10u64)?;
        self.days = days_of(self.year);
        Ok(())
    }

    fn second(&mut self, line: &str) -> Result<(), u64> {
        let marks = (0..10).find(|m| line == format!("marks {m}")).ok_or(10u64)?;
        self.sheet = Some(Sheet::open(marks).map_err(|reply| reply.answer)?);
        Ok(())
    }

    fn later(&mut self, line: &str) -> Result<(), u64> {
        let (date, rest) = split_date(line).unwrap_or(("", line));
        if self.begun && date.is_empty() {
            return Err(10);
        }
        let change = self.read(date, rest).ok_or(10u64)?;
        if !date.is_empty() {
            self.begun = true;
            if !self.days.contains(date) || date < self.last.as_str() {
                return Err(11);
            }
        }
        change.make(self.sheet.as_mut().unwrap()).map_err(|reply| reply.answer)?;
        self.last = date.to_string();
        self.made.push(change);
        Ok(())
    }

    fn read(&self, date: &str, text: &str) -> Option<Change> {
        let marks = self.sheet.as_ref()?.marks as usize;
        let words: Vec<&str> = text.split(' ').collect();
        let (verb, pattern, seconds) = match words[..] {
            [verb @ ("in" | "out"), pattern] => (verb, pattern, 0),
            [verb @ ("recv" | "gone"), pattern, time] => {
                let reply = self.times.read(time.as_bytes());
                (verb, pattern, (reply.answer == 0).then_some(reply.value)?)
            }
            _ => return None,
        };
        let combination = (0..1 << marks).find(|c| format!("{c:0marks$b}") == pattern)?;
        Some(Change { date: date.to_string(), verb: verb.to_string(), combination, seconds })
    }

    /// The rows, if there are any. No date of a month is behind its 31st.
    fn end(&mut self) {
        if self.over {
            return;
        }
        self.over = true;
        let Some(sheet) = &self.sheet else { return };
        for month in 1..=12 {
            let bound = format!("{}-{month:02}-31", self.year);
            let mut then = Sheet::open(u64::from(sheet.marks)).unwrap();
            self.made.iter().filter(|change| change.date <= bound).for_each(|change| change.make(&mut then).unwrap());
            let total = then.total();
            self.output += &format!("{month:02} {}:{:02}\n", total / 60, total % 60);
        }
    }
}
