//! The rules of the library written a second time, for the tests alone: plainly, and by other means than the library's wherever there are any.
//! A sheet here is how each combination stands, what it holds and the groups of its profile; nothing is kept for a line, all of it is worked out when asked
//! for.

use std::collections::{HashMap, HashSet};

pub const MOST_HELD: u64 = 4_000_000_000;
pub const MOST_AMOUNT: u64 = 35_999;

/// How a combination stands. Either is one that no can could have: lines may contain it or not.
#[derive(Clone, Copy, PartialEq, Eq, Debug)]
pub enum Standing {
    In,
    Out,
    Either,
}

#[derive(Clone, PartialEq, Eq, Debug)]
pub struct Sheet {
    pub marks: u32,
    pub standing: Vec<Standing>,
    pub held: Vec<u64>,
    /// The groups of the carrier profile, a bit for each mark; none, if the sheet has no profile.
    pub groups: Vec<u8>,
}

#[derive(Clone, Copy, PartialEq, Eq, Debug, Default)]
pub struct Reply {
    pub answer: u64,
    pub place: u64,
    pub value: u64,
    /// That of a running time which was read; else 0.
    pub form: u64,
    /// Those of a list which was checked; else 0.
    pub fault: u64,
    pub at: u64,
}

pub fn done(value: u64) -> Reply {
    Reply { value, ..Reply::default() }
}

pub fn refused(answer: u64) -> Reply {
    Reply { answer, ..Reply::default() }
}

pub fn unreadable(place: usize) -> Reply {
    Reply { place: place as u64, ..refused(10) }
}

/// Whether line `b` contains combination `c`, by the digits from the lowest mark up.
pub fn contains(marks: u32, b: u64, c: u64) -> bool {
    (0..marks).all(|i| {
        let digit = b / 3u64.pow(i) % 3;
        digit == 2 || digit == c / 2u64.pow(i) % 2
    })
}

/// Whether each group names two marks at least, each of them one that a can has, and no mark is named twice.
fn go_together(marks: u32, groups: &[u8]) -> bool {
    let of = |group: u8| (0..8).filter(move |i| group >> i & 1 == 1);
    let named: Vec<u32> = groups.iter().flat_map(|&group| of(group)).collect();
    let different: HashSet<u32> = named.iter().copied().collect();
    groups.iter().all(|&group| of(group).count() >= 2) && named.iter().all(|&i| i < marks) && different.len() == named.len()
}

/// Whether groups make a carrier profile.
fn is_profile(marks: u32, groups: &[u8]) -> bool {
    (groups.len() == 1 || groups.len() == 2) && go_together(marks, groups)
}

/// A field at a time: each is judged once all of its bytes are there.
struct Fields<'a> {
    bytes: &'a [u8],
    at: usize,
}

impl Fields<'_> {
    /// The number in the next `n` bytes and their offset; if they are not all there, the length as the place.
    fn next(&mut self, n: usize) -> Result<(u64, usize), Reply> {
        let from = self.at;
        let field = self.bytes.get(from..from + n).ok_or(unreadable(self.bytes.len()))?;
        self.at = from + n;
        Ok((field.iter().rev().fold(0, |x, &b| x * 256 + u64::from(b)), from))
    }

    fn fault_if(fault: bool, place: usize) -> Result<(), Reply> {
        if fault {
            Err(unreadable(place))
        } else {
            Ok(())
        }
    }

    fn count(&mut self, most: u64) -> Result<u64, Reply> {
        let (n, from) = self.next(2)?;
        Self::fault_if(n > most, from)?;
        Ok(n)
    }

    /// A combination of the sheet above the one before in its section, which may not stand so by the sections before.
    fn combination(&mut self, sheet: &Sheet, before: Option<u64>, barred: Standing) -> Result<usize, Reply> {
        let (c, from) = self.next(1)?;
        Self::fault_if(c >= sheet.size() || before.is_some_and(|b| c <= b), from)?;
        Self::fault_if(sheet.standing[c as usize] == barred, from)?;
        Ok(c as usize)
    }

    /// A section of combinations that all stand so. None of them is in the class already.
    fn standings(&mut self, sheet: &mut Sheet, standing: Standing) -> Result<(), Reply> {
        let mut before = None;
        for _ in 0..self.count(sheet.size())? {
            let c = self.combination(sheet, before, Standing::In)?;
            sheet.standing[c] = standing;
            before = Some(c as u64);
        }
        Ok(())
    }

    /// The section of what is held. No either combination holds anything.
    fn seconds(&mut self, sheet: &mut Sheet) -> Result<(), Reply> {
        let (mut before, mut sum) = (None, 0);
        for _ in 0..self.count(sheet.size())? {
            let c = self.combination(sheet, before, Standing::Either)?;
            let (seconds, from) = self.next(4)?;
            sum += seconds;
            Self::fault_if(seconds == 0 || sum > MOST_HELD, from)?;
            sheet.held[c] = seconds;
            before = Some(c as u64);
        }
        Ok(())
    }

    /// The profile, which any byte begins that is left. A group is judged with those before it, and the standings by the whole.
    fn profile(&mut self, sheet: &mut Sheet) -> Result<(), Reply> {
        if self.at == self.bytes.len() {
            return Ok(());
        }
        let (count, from) = self.next(2)?;
        Self::fault_if(count != 1 && count != 2, from)?;
        for _ in 0..count {
            let (group, at) = self.next(1)?;
            sheet.groups.push(group as u8);
            Self::fault_if(!go_together(sheet.marks, &sheet.groups), at)?;
        }
        let stays = |c: usize| sheet.standing[c] == Standing::Either;
        Self::fault_if((0..sheet.standing.len()).any(|c| sheet.breaks(c) && !stays(c)), from)
    }

    fn end(&self) -> Result<(), Reply> {
        Self::fault_if(self.at < self.bytes.len(), self.at)
    }
}

/// The bytes of a form, from what stands in its sections, whether that makes a sheet or not; 01's form has no section of either combinations, and where
/// there is no group there is no profile.
pub fn laid(marks: u32, class: &[u8], either: Option<&[u8]>, held: &[(u8, u64)], groups: &[u8]) -> Vec<u8> {
    let count = |n: usize| (n as u16).to_le_bytes();
    let mut form = vec![marks as u8];
    for section in [Some(class), either].into_iter().flatten() {
        form.extend(count(section.len()));
        form.extend(section);
    }
    form.extend(count(held.len()));
    for &(c, seconds) in held {
        form.push(c);
        form.extend((seconds as u32).to_le_bytes());
    }
    if !groups.is_empty() {
        form.extend(count(groups.len()));
        form.extend(groups);
    }
    form
}

impl Sheet {
    pub fn open(marks: u64) -> Result<Sheet, Reply> {
        if marks == 0 || marks > 5 {
            return Err(refused(1));
        }
        let n = 1 << marks;
        Ok(Sheet { marks: marks as u32, standing: vec![Standing::Out; n], held: vec![0; n], groups: Vec::new() })
    }

    pub fn open_profile(marks: u64, groups: &[u8]) -> Result<Sheet, Reply> {
        let mut sheet = Sheet::open(marks)?;
        if !is_profile(sheet.marks, groups) {
            return Err(refused(13));
        }
        sheet.groups = groups.to_vec();
        for c in 0..sheet.standing.len() {
            if sheet.breaks(c) {
                sheet.standing[c] = Standing::Either;
            }
        }
        Ok(sheet)
    }

    /// Whether a combination has not just one mark on in each group.
    pub fn breaks(&self, c: usize) -> bool {
        self.groups.iter().any(|&group| (c & usize::from(group)).count_ones() != 1)
    }

    pub fn size(&self) -> u64 {
        self.standing.len() as u64
    }

    /// The bytes that its list asks for, however short that is: one for every two combinations.
    pub fn list_room(&self) -> u64 {
        self.size() / 2
    }

    pub fn read(bytes: &[u8]) -> Result<Sheet, Reply> {
        let (mut fields, mut sheet) = Self::read_sections(bytes, &[Standing::In, Standing::Either])?;
        fields.profile(&mut sheet)?;
        fields.end()?;
        Ok(sheet)
    }

    /// What 01's form says, which knows no either combination and no profile.
    pub fn read_form1(bytes: &[u8]) -> Result<Sheet, Reply> {
        let (fields, sheet) = Self::read_sections(bytes, &[Standing::In])?;
        fields.end()?;
        Ok(sheet)
    }

    /// The sections that both forms have, and what stands behind them.
    fn read_sections<'a>(bytes: &'a [u8], standings: &[Standing]) -> Result<(Fields<'a>, Sheet), Reply> {
        let mut fields = Fields { bytes, at: 0 };
        let (marks, _) = fields.next(1)?;
        let mut sheet = Sheet::open(marks)?;
        for &standing in standings {
            fields.standings(&mut sheet, standing)?;
        }
        fields.seconds(&mut sheet)?;
        Ok((fields, sheet))
    }

    /// The combinations that stand so, rising.
    pub fn standing_so(&self, standing: Standing) -> Vec<u8> {
        (0u8..32).filter(|&c| self.standing.get(c as usize) == Some(&standing)).collect()
    }

    /// The combinations that hold something, rising, each with its seconds.
    pub fn holding(&self) -> Vec<(u8, u64)> {
        (0u8..).zip(self.held.iter().copied()).filter(|&(_, s)| s > 0).collect()
    }

    pub fn form(&self) -> Vec<u8> {
        laid(self.marks, &self.standing_so(Standing::In), Some(&self.standing_so(Standing::Either)), &self.holding(), &self.groups)
    }

    /// 01's form, in which what is either does not show, nor a profile.
    pub fn form1(&self) -> Vec<u8> {
        laid(self.marks, &self.standing_so(Standing::In), None, &self.holding(), &[])
    }

    pub fn change(&mut self, c: u64, to: Standing) -> Result<(), Reply> {
        let at = usize::try_from(c).unwrap();
        let standing = *self.standing.get(at).ok_or(refused(2))?;
        if self.breaks(at) {
            return Err(refused(12));
        }
        if standing == to {
            return Err(refused(3));
        }
        if to == Standing::Either && self.held[at] > 0 {
            return Err(refused(12));
        }
        self.standing[at] = to;
        Ok(())
    }

    pub fn receive(&mut self, c: u64, seconds: u64) -> Result<(), Reply> {
        self.amount(c, seconds)?;
        if self.standing[c as usize] == Standing::Either {
            return Err(refused(12));
        }
        if self.held.iter().sum::<u64>() + seconds > MOST_HELD {
            return Err(refused(8));
        }
        self.held[c as usize] += seconds;
        Ok(())
    }

    pub fn withdraw(&mut self, c: u64, seconds: u64) -> Result<(), Reply> {
        self.amount(c, seconds)?;
        let left = self.held[c as usize].checked_sub(seconds).ok_or(refused(9))?;
        self.held[c as usize] = left;
        Ok(())
    }

    fn amount(&self, c: u64, seconds: u64) -> Result<(), Reply> {
        if c >= self.size() {
            return Err(refused(2));
        }
        if seconds < 1 || seconds > MOST_AMOUNT {
            return Err(refused(4));
        }
        Ok(())
    }

    pub fn class_size(&self) -> u64 {
        self.standing_so(Standing::In).len() as u64
    }

    pub fn total(&self) -> u64 {
        self.standing.iter().zip(&self.held).filter(|(&s, _)| s == Standing::In).map(|(_, s)| s).sum()
    }

    fn over_line(&self, line: u64, f: impl Fn(usize) -> u64) -> u64 {
        if line >= 3u64.pow(self.marks) {
            return 0;
        }
        (0..self.size()).filter(|&c| contains(self.marks, line, c)).map(|c| f(c as usize)).sum()
    }

    pub fn outside(&self, line: u64) -> u64 {
        self.over_line(line, |c| u64::from(self.standing[c] == Standing::Out))
    }

    pub fn either(&self, line: u64) -> u64 {
        self.over_line(line, |c| u64::from(self.standing[c] == Standing::Either))
    }

    pub fn held_in(&self, line: u64) -> u64 {
        self.over_line(line, |c| self.held[c])
    }

    /// What the lines of a list must contain, and what they may.
    fn need(&self) -> Vec<bool> {
        self.standing.iter().map(|&s| s == Standing::In).collect()
    }

    fn room(&self) -> Vec<bool> {
        self.standing.iter().map(|&s| s != Standing::Out).collect()
    }

    /// A list that someone else drew: it must contain the class, and may contain nothing that is out.
    pub fn check(&self, list: &[u8]) -> Reply {
        let (fault, at) = fault(self.marks, list, &self.need(), &self.room());
        Reply { fault, at, ..done(0) }
    }

    /// What is read back when these lines were written as a PLA text: all that they contain is in the class, and the rest is out.
    pub fn covered_by(&self, list: &[u8]) -> Sheet {
        let mut sheet = Sheet::open(u64::from(self.marks)).unwrap();
        for (c, standing) in sheet.standing.iter_mut().enumerate() {
            if list.iter().any(|&b| contains(self.marks, u64::from(b), c as u64)) {
                *standing = Standing::In;
            }
        }
        sheet
    }
}

/// The faults of a list.
pub const FITS: u64 = 0;
pub const NO_BOX: u64 = 1;
pub const OVERLAP: u64 = 2;
pub const LEAVES: u64 = 3;
pub const UNCOVERED: u64 = 4;

/// The first fault of a list whose lines must contain all of `need` and nothing outside `room`, none of it twice; and where it is. Each fault is
/// sought in the whole list before the next.
fn fault(marks: u32, list: &[u8], need: &[bool], room: &[bool]) -> (u64, u64) {
    let all = 0..2u64.pow(marks);
    let has = |b: u8, c: u64| contains(marks, u64::from(b), c);
    let shares = |a: u8, b: u8| all.clone().any(|c| has(a, c) && has(b, c));
    let no_box = || list.iter().position(|&b| u64::from(b) >= 3u64.pow(marks));
    let overlap = || (0..list.len()).find(|&i| list[..i].iter().any(|&b| shares(b, list[i])));
    let leaves = || list.iter().position(|&b| all.clone().any(|c| has(b, c) && !room[c as usize]));
    let uncovered = || all.clone().position(|c| need[c as usize] && !list.iter().any(|&b| has(b, c)));
    let sought: [(u64, &dyn Fn() -> Option<usize>); 4] = [(NO_BOX, &no_box), (OVERLAP, &overlap), (LEAVES, &leaves), (UNCOVERED, &uncovered)];
    sought.iter().find_map(|(fault, place)| Some((*fault, place()? as u64))).unwrap_or((FITS, 0))
}

/// The shortest lists, from the least number of lines of every sheet of four marks, worked out once: of each two sets of combinations, those that the
/// lines must contain and those that they may. A list of five marks has lines with a certain mark free, which contain the same of both halves; what is left
/// of either half has lines of its own. A sheet of fewer marks is one of five with the higher marks off, and its lines have the same numbers.
pub struct Lists {
    /// The lines of five marks, each with its combinations; the first 81 are those of four.
    lines: Vec<(u64, u32)>,
    /// A set of 16 combinations, a bit for each, as a number with a digit of base three for each: 1 if it is in the set.
    digits: Vec<u32>,
    /// By the digits of both sets, added: 2 for what must be contained, 1 for what may, 0 for what may not.
    least: Vec<u8>,
}

/// What lines must contain and what they may, of the combinations with a mark off and of those with it on, each without that mark.
struct Halves {
    need: [u32; 2],
    room: [u32; 2],
}

impl Halves {
    fn new(mark: u32, need: u32, room: u32) -> Halves {
        let half = |set: u32, on: u32| {
            let with = |k: u32| (k >> mark << (mark + 1)) | (on << mark) | (k & ((1 << mark) - 1));
            (0..16).map(|k| (set >> with(k) & 1) << k).sum()
        };
        Halves { need: [half(need, 0), half(need, 1)], room: [half(room, 0), half(room, 1)] }
    }

    /// What a line with the mark free may contain.
    fn both(&self) -> u32 {
        self.room[0] & self.room[1]
    }
}

impl Lists {
    pub fn new() -> Lists {
        let lines: Vec<(u64, u32)> = (0..243).map(|b| (b, (0..32).filter(|&c| contains(5, b, c)).map(|c| 1 << c).sum())).collect();
        let digits = (0u32..1 << 16).map(|set| (0..16).map(|c| (set >> c & 1) * 3u32.pow(c)).sum()).collect();
        let mut lists = Lists { lines, digits, least: Vec::new() };
        lists.fill();
        lists
    }

    /// From the lowest combination that must be contained: each line through it leaves sets with smaller digits.
    fn fill(&mut self) {
        let through: Vec<Vec<u32>> = (0..16).map(|c| self.lines.iter().take(81).map(|&(_, s)| s).filter(|s| s >> c & 1 == 1).collect()).collect();
        let halves: Vec<(u32, u32)> = (0..3u32.pow(8))
            .map(|x| {
                let set = |least: u32| (0..8).map(|c| u32::from(x / 3u32.pow(c) % 3 >= least) << c).sum();
                (set(2), set(1))
            })
            .collect();
        self.least = Vec::with_capacity(3usize.pow(16));
        for high in &halves {
            for low in &halves {
                let (need, room) = (high.0 << 8 | low.0, high.1 << 8 | low.1);
                let index = self.least.len();
                let left = |s: u32| index - (self.digits[s as usize] + self.digits[(s & need) as usize]) as usize;
                let least = match need {
                    0 => 0,
                    _ => through[need.trailing_zeros() as usize].iter().filter(|&&s| s & !room == 0).map(|&s| 1 + self.least[left(s)]).min().unwrap(),
                };
                self.least.push(least);
            }
        }
    }

    fn least_of_four(&self, need: u32, room: u32) -> u8 {
        self.least[(self.digits[need as usize] + self.digits[room as usize]) as usize]
    }

    /// No list has fewer lines: those in one half, with the mark free or not, are a list of it; and in the other half, what no line with the mark free may
    /// contain takes lines that have it fixed.
    fn no_fewer(&self, h: &Halves) -> u8 {
        let alone = |k: usize| self.least_of_four(h.need[k] & !h.both(), h.room[k]);
        let whole = |k: usize| self.least_of_four(h.need[k], h.room[k]);
        (whole(0) + alone(1)).max(whole(1) + alone(0))
    }

    /// Whether there is a list of at most so many lines: the mark is taken that leaves the fewest choices of what lines with it free contain.
    fn has_list(&self, need: u32, room: u32, most: u8) -> bool {
        let halves: [Halves; 5] = [0, 1, 2, 3, 4].map(|mark| Halves::new(mark, need, room));
        if halves.iter().any(|h| self.no_fewer(h) > most) {
            return false;
        }
        let h = halves.iter().min_by_key(|h| h.both().count_ones()).unwrap();
        let mut part = h.both();
        loop {
            let rest = |k: usize| self.least_of_four(h.need[k] & !part, h.room[k] & !part);
            if self.least_of_four(part, part) + rest(0) + rest(1) <= most {
                return true;
            }
            if part == 0 {
                return false;
            }
            part = (part - 1) & h.both();
        }
    }

    /// The first shortest list: at each place the smallest number that leaves a list with one line fewer.
    pub fn first_shortest(&self, sheet: &Sheet) -> Vec<u8> {
        let set = |has: Vec<bool>| has.iter().enumerate().map(|(c, &has)| u32::from(has) << c).sum::<u32>();
        let (mut need, mut room) = (set(sheet.need()), set(sheet.room()));
        let mut left = (0..).find(|&n| self.has_list(need, room, n)).unwrap();
        let mut list = Vec::new();
        while need != 0 {
            let low = need & need.wrapping_neg();
            left -= 1;
            let leaves = |s: u32| s & low != 0 && s & !room == 0 && self.has_list(need & !s, room & !s, left);
            let &(b, s) = self.lines.iter().find(|&&(_, s)| leaves(s)).expect("some line leaves one fewer");
            list.push(b as u8);
            need &= !s;
            room &= !s;
        }
        list
    }
}

/// The forms of a running time, and the bytes of the longest.
pub const MINUTES: u64 = 1;
pub const HOURS: u64 = 2;
const LONGEST: usize = "9:59:59".len();

/// All the running times there are, each with what it is read as, and all their beginnings.
pub struct Times {
    replies: HashMap<Vec<u8>, Reply>,
    beginnings: HashSet<Vec<u8>>,
}

impl Times {
    pub fn new() -> Times {
        let mut times = Times { replies: HashMap::new(), beginnings: HashSet::new() };
        let up_to = |most: u64| (0..=most).flat_map(|m| (0..=59).map(move |s| (m, s)));
        for (m, s) in up_to(599) {
            times.add(format!("{m}:{s:02}"), 60 * m + s, MINUTES);
        }
        for h in 1..=9 {
            for (m, s) in up_to(59) {
                times.add(format!("{h}:{m:02}:{s:02}"), 3600 * h + 60 * m + s, HOURS);
            }
        }
        times
    }

    fn add(&mut self, text: String, value: u64, form: u64) {
        let text = text.into_bytes();
        self.beginnings.extend((0..=text.len()).map(|n| text[..n].to_vec()));
        assert!(self.replies.insert(text, Reply { form, ..done(value) }).is_none(), "a text is read in one way");
    }

    pub fn read(&self, text: &[u8]) -> Reply {
        let place = || (0..=text.len().min(LONGEST)).rev().find(|&n| self.beginnings.contains(&text[..n])).unwrap();
        self.replies.get(text).copied().unwrap_or_else(|| unreadable(place()))
    }
}

/// Whether list `a` is before list `b`.
pub fn is_before(a: &[u8], b: &[u8]) -> bool {
    (a.len(), a) < (b.len(), b)
}

/// A PLA text, by its lines: each with its offset and its words, up to a line that begins with `.e`.
struct Pla<'a> {
    size: usize,
    lines: Vec<(usize, Vec<&'a [u8]>)>,
}

/// Digits, without a needless zero in front. What number they are is told by comparing texts, so that they may be as many as one likes.
fn is_number(word: &[u8]) -> bool {
    !word.is_empty() && word.iter().all(u8::is_ascii_digit) && (word == b"0" || word[0] != b'0')
}

impl<'a> Pla<'a> {
    fn new(text: &'a [u8]) -> Pla<'a> {
        let mut at = 0;
        let lines = text.split(|&b| b == b'\n').map(|line| {
            let from = at;
            at += line.len() + 1;
            let said = line.split(|&b| b == b'#').next().unwrap();
            (from, said.split(|&b| b == b' ' || b == b'\t').filter(|w| !w.is_empty()).collect::<Vec<_>>())
        });
        let lines = lines.take_while(|(_, words)| words.first() != Some(&&b".e"[..])).collect();
        Pla { size: text.len(), lines }
    }

    /// Where the first line with a keyword is.
    fn first(&self, keyword: &str) -> Option<usize> {
        self.lines.iter().position(|(_, words)| words.first() == Some(&keyword.as_bytes()))
    }

    /// The second word of a line.
    fn argument(&self, line: usize) -> &'a [u8] {
        self.lines[line].1.get(1).copied().unwrap_or_default()
    }

    /// Whether a line may stand where it does, given where the first `.i`, `.o` and `.p` are: what stands before is taken to be readable.
    fn is_readable(&self, line: usize, [i, o, p]: [Option<usize>; 3]) -> bool {
        let words = &self.lines[line].1;
        let behind = |first: Option<usize>| first.is_some_and(|f| f < line);
        match words[..] {
            [] => true,
            [b".i", n] => i == Some(line) && is_number(n),
            [b".o", n] => o == Some(line) && behind(i) && n == b"1",
            [b".p", n] => p == Some(line) && is_number(n),
            [cube, n] => {
                let width = self.argument(i.unwrap_or(line));
                behind(o) && n == b"1" && cube.iter().all(|b| b"01-".contains(b)) && cube.len().to_string().as_bytes() == width
            }
            _ => false,
        }
    }

    fn read(&self) -> Result<Sheet, Reply> {
        let firsts = [".i", ".o", ".p"].map(|k| self.first(k));
        let [i, o, p] = firsts;
        let fault = (0..self.lines.len()).find(|&line| !self.is_readable(line, firsts));
        let marks = i.map(|i| self.argument(i)).and_then(|n| [b"1", b"2", b"3", b"4", b"5"].iter().position(|m| *m == n));
        if let (Some(i), None) = (i, marks) {
            if fault.map_or(true, |f| i < f) {
                return Err(refused(1));
            }
        }
        if let Some(line) = fault {
            return Err(unreadable(self.lines[line].0));
        }
        let (Some(marks), Some(o)) = (marks, o) else {
            return Err(unreadable(self.size));
        };
        let cubes: Vec<&[u8]> = self.lines[o + 1..].iter().filter_map(|(_, w)| w.first().copied()).filter(|w| w[0] != b'.').collect();
        match p {
            Some(p) if self.argument(p) != cubes.len().to_string().as_bytes() => Err(unreadable(self.lines[p].0)),
            _ => Ok(Self::drawn(marks + 1, &cubes)),
        }
    }

    /// The sheet of all combinations that, written in binary, differ from some cube only where that is free.
    fn drawn(marks: usize, cubes: &[&[u8]]) -> Sheet {
        let cubes: HashSet<&[u8]> = cubes.iter().copied().collect();
        let mut sheet = Sheet::open(marks as u64).unwrap();
        for (c, standing) in sheet.standing.iter_mut().enumerate() {
            let own = format!("{c:0marks$b}").into_bytes();
            if cubes.iter().any(|cube| cube.iter().zip(&own).all(|(&x, &y)| x == b'-' || x == y)) {
                *standing = Standing::In;
            }
        }
        sheet
    }
}

pub fn read_pla(text: &[u8]) -> Result<Sheet, Reply> {
    Pla::new(text).read()
}

/// A line of a list as a cube.
pub fn cube(marks: u32, b: u64) -> String {
    (0..marks).rev().map(|i| ["0", "1", "-"][(b / 3u64.pow(i) % 3) as usize]).collect()
}

/// The text of a list.
pub fn pla(marks: u32, list: &[u8]) -> Vec<u8> {
    let cubes: String = list.iter().map(|&b| format!("{} 1\n", cube(marks, u64::from(b)))).collect();
    format!(".i {marks}\n.o 1\n.p {}\n{cubes}.e\n", list.len()).into_bytes()
}
