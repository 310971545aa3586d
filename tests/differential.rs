//! Compares the library with tests/model.rs: of every class of up to four marks, and up to three marks with every choice of either combinations, the
//! list, the PLA text, that text read back, the list checked, and a list that someone else drew; openings under every one and every two groups of marks, each
//! change under every profile, and forms whose standings do and do not fit their profile; then random calls of every entry. They go to a program that makes
//! them (tests/driver.c), and its replies and all the bytes of the areas that were lent, with those around them, must be the model's.
//!
//!     differential CALLS SEED PROGRAM WORD..
//!
//! starts PROGRAM and speaks with it through pipes. It prints what was compared, and ends with status 1 at the first difference.

mod model;
mod random;

use model::{cube, done, is_before, laid, pla, read_pla, refused, Lists, Reply, Sheet, Standing, Times, HOURS, MINUTES, MOST_AMOUNT, MOST_HELD};
use model::{FITS, LEAVES, NO_BOX, OVERLAP, UNCOVERED};
use random::Random;
use std::io::{Read, Write};
use std::process::{Child, Command, Stdio};

#[rustfmt::skip]
const NAMES: [&str; 20] = ["open", "enter", "leave", "receive", "withdraw", "copy", "list", "class_size", "total", "outside", "held", "before", "read_time",
    "read_pla", "write_pla", "check_list", "make_either", "either", "from_form1", "open_profile"];

/// Lines that no PLA text of ours has, or that have a meaning of their own.
#[rustfmt::skip]
const ODD_LINES: [&str; 48] = [".ilb a b", ".ob z", ".type fd", ".names a b", ".end", ".ex", ".E", ".e", ".e#x", ".e junk", " .e", "..e", ". e", "e", ".", ".i",
    ".o", ".p", ".i4", ".i4 ", ".o1", ".p1", ".i 4 4", ".o 1 1", ".p 1 1", ".o 2", ".o 0", ".o 01", ".o", ".i x", ".i -1", ".i +1", ".i 0x1", ".i 1.", ". i 2",
    ".I 2", "i 2", "0101", "0101 0", "0101 ~", "0101 2", "0101 1 1", "1", "1 1", "- 1", "#", "\r", "0101|1"];

/// Bytes that have a meaning, or look as if they had one.
const SIGNS: &[u8] = b"01-.iope#0123456789 \t\n\r\0\x0b\x0c\x1a\x7f\x80\xff2~|";

/// An area that is lent, and what stands around it.
#[derive(Clone, Debug)]
struct Area {
    null: bool,
    before: Vec<u8>,
    bytes: Vec<u8>,
    behind: Vec<u8>,
}

impl Area {
    fn new(r: &mut Random, bytes: Vec<u8>) -> Area {
        let null = bytes.is_empty() && r.one_in(2);
        let (before, behind) = r.of(&[(0, 48), (48, 0), (16, 16), (0, 0)]);
        Area { null, before: r.bytes(before), bytes, behind: r.bytes(behind) }
    }

    fn all(&self) -> Vec<u8> {
        [&self.before[..], &self.bytes, &self.behind].concat()
    }

    fn send(&self, to: &mut Vec<u8>) {
        to.push(u8::from(self.null));
        for part in [&self.before, &self.bytes, &self.behind] {
            to.extend((part.len() as u32).to_le_bytes());
        }
        to.extend(self.all());
    }
}

/// A call, and what the model makes of it.
#[derive(Debug)]
struct Call {
    entry: usize,
    numbers: [u64; 2],
    areas: Vec<Area>,
    reply: Reply,
    later: Vec<Vec<u8>>,
}

/// The bytes of a batch of calls, behind which no further call is put into it.
const MOST_BYTES: usize = 1 << 20;

impl Call {
    fn size(&self) -> usize {
        self.later.iter().map(Vec::len).sum()
    }
}

/// What is to be written to an area, or the refusal.
type Written = Result<Vec<u8>, Reply>;

/// The sheet behind a call that changes it; one that copies it does not.
fn changed(entry: usize, mut sheet: Sheet, c: u64, seconds: u64) -> Result<Sheet, Reply> {
    match entry {
        1 => sheet.change(c, Standing::In)?,
        2 => sheet.change(c, Standing::Out)?,
        16 => sheet.change(c, Standing::Either)?,
        3 => sheet.receive(c, seconds)?,
        4 => sheet.withdraw(c, seconds)?,
        _ => {}
    }
    Ok(sheet)
}

struct Tests {
    r: Random,
    lists: Lists,
    times: Times,
    pool: Vec<Sheet>,
}

impl Tests {
    /// A number below `n` mostly; else at the limit, or far above, also such that its low bits are a number below.
    fn number(&mut self, n: u64) -> u64 {
        let low = self.r.below(n);
        match self.r.below(16) {
            0 => n,
            1 => n - 1,
            2 => self.r.of(&[n + 1, 255, 256, 243, 242, u64::MAX, 1 << 63, u64::from(u32::MAX)]),
            3 => low + self.r.of(&[1 << 8, 1 << 16, 1 << 31, 1 << 32, 1 << 33, 1 << 48, 1 << 63]),
            _ => low,
        }
    }

    fn seconds(&mut self, sheet: &Sheet, c: u64) -> u64 {
        let held = sheet.held.get(c as usize).copied().unwrap_or(7);
        let rest = MOST_HELD - sheet.held.iter().sum::<u64>();
        match self.r.below(12) {
            0 => self.r.of(&[0, 1, MOST_AMOUNT, MOST_AMOUNT + 1]),
            1 => self.r.of(&[held, held + 1, held.wrapping_sub(1)]),
            2 => self.r.of(&[rest, rest + 1, rest.wrapping_sub(1)]),
            3 => self.r.of(&[1 << 16, 1 << 32, (1 << 32) + 1, (1 << 32) + 600, 1 << 63, u64::MAX, MOST_HELD]),
            _ => 1 + self.r.below(MOST_AMOUNT),
        }
    }

    /// A profile of so many marks: the first marks of some order, and perhaps the next ones. There is none of a single mark.
    fn profile(&mut self, marks: u32) -> Vec<u8> {
        let mut order: Vec<u8> = (0..marks as u8).collect();
        self.shuffle(&mut order);
        let (mut left, mut groups) = (&order[..], Vec::new());
        for _ in 0..self.r.of(&[1, 2]) {
            if left.len() >= 2 {
                let (group, rest) = left.split_at(2 + self.r.below(left.len() as u64 - 1) as usize);
                groups.push(group.iter().map(|i| 1 << i).sum());
                left = rest;
            }
        }
        groups
    }

    /// Groups of marks: a profile mostly; else one that something was done to.
    fn groups(&mut self, marks: u32) -> Vec<u8> {
        let mut groups = self.profile(marks);
        for _ in 0..self.r.of(&[0, 0, 1, 1, 2]) {
            self.regroup(&mut groups);
        }
        groups
    }

    /// One thing done to groups: a mark more or fewer, a group more, fewer or twice, another one, another order, or many of them.
    fn regroup(&mut self, groups: &mut Vec<u8>) {
        let n = groups.len();
        let (at, to) = (self.r.below(n as u64 + 1) as usize, self.r.below(n as u64 + 1) as usize);
        let any = self.r.next() as u8;
        let near = self.r.of(&[0, 1, 3, 6, 12, 24, 31, 32, 64, 128, 255]);
        match self.r.below(10) {
            0 => groups.insert(at, any),
            1 => groups.insert(at, near),
            2 => groups.clear(),
            3 => self.many(groups, near),
            _ if at == n => {}
            4 | 5 => groups[at] ^= 1 << self.r.below(8),
            6 => {
                groups.remove(at);
            }
            7 => groups.insert(to, groups[at]),
            8 => groups[at] = any,
            _ => groups.swap(at, to % n),
        }
    }

    /// More groups than any profile has, also so many that the low bits of their number are those of one or two.
    fn many(&mut self, groups: &mut Vec<u8>, group: u8) {
        let few = self.r.of(&[3, 4, 5, 32, 255, 256, 257, 258, 512, 513]);
        let n = if self.r.one_in(8) { self.r.of(&[65_535, 65_536, 65_537, 65_538, 100_000]) } else { few };
        groups.resize(n, group);
    }

    /// An opened sheet, under a profile or not.
    fn opened(&mut self) -> Sheet {
        let marks = self.r.of(&[1, 2, 3, 4, 5, 5]);
        let groups = self.profile(marks as u32);
        if groups.is_empty() || self.r.one_in(2) {
            Sheet::open(marks).unwrap()
        } else {
            Sheet::open_profile(marks, &groups).unwrap()
        }
    }

    /// A sheet of any class, without either combinations beside those that break its profile or with a few or many, that may hold as much as a sheet can.
    fn sheet(&mut self) -> Sheet {
        let mut sheet = self.opened();
        let (dense, either, filled) = (self.r.below(101), self.r.of(&[0, 0, 10, 30, 60, 95]), self.r.of(&[0, 10, 50, 100]));
        for c in 0..sheet.standing.len() {
            if sheet.breaks(c) || self.r.below(100) < either {
                sheet.standing[c] = Standing::Either;
                continue;
            }
            if self.r.below(100) < dense {
                sheet.standing[c] = Standing::In;
            }
            if self.r.below(100) < filled {
                let most = self.r.of(&[1, 300, 36_000, 40_000_000, MOST_HELD]);
                let rest = MOST_HELD - sheet.held.iter().sum::<u64>();
                sheet.held[c] = (1 + self.r.below(most)).min(rest);
            }
        }
        if self.r.one_in(4) {
            let c = self.r.below(sheet.size()) as usize;
            let rest = MOST_HELD - sheet.held.iter().sum::<u64>();
            if sheet.standing[c] != Standing::Either {
                sheet.held[c] += rest.saturating_sub(self.r.of(&[0, 1, 600, 35_998, 35_999, 36_000]));
            }
        }
        sheet
    }

    /// One of the sheets that calls are made on; now and then it is a new one.
    fn one_of_pool(&mut self) -> Sheet {
        let at = self.r.below(self.pool.len() as u64) as usize;
        if self.r.one_in(40) {
            self.pool[at] = self.sheet();
        }
        self.pool[at].clone()
    }

    /// Bytes that are mostly a sheet's: as they are, or damaged in one place, or such that sections do not go together, or of the old form, or with something
    /// else at the end.
    fn form(&mut self) -> Vec<u8> {
        let sheet = self.one_of_pool();
        if self.r.below(4) != 0 {
            return sheet.form();
        }
        let second = 3 + sheet.class_size() as usize;
        let third = second + 2 + sheet.standing_so(Standing::Either).len();
        match self.r.below(24) {
            0..=2 => self.clashing(&sheet),
            3 => sheet.form1(),
            4 => self.both_forms(),
            5..=10 => self.other_end(sheet),
            _ => self.damaged(sheet.form(), &[1, second, third]),
        }
    }

    /// Bytes that are mostly an old form, likewise.
    fn old_form(&mut self) -> Vec<u8> {
        let sheet = self.one_of_pool();
        let second = 3 + sheet.class_size() as usize;
        match self.r.below(13) {
            0..=5 => sheet.form1(),
            6 => sheet.form(),
            7 => self.both_forms(),
            8 => {
                let groups = self.groups(sheet.marks);
                laid(sheet.marks, &sheet.standing_so(Standing::In), None, &sheet.holding(), &groups)
            }
            _ => self.damaged(sheet.form1(), &[1, second]),
        }
    }

    /// A form with either combinations that are in the class, or that hold something, or none that is so.
    fn clashing(&mut self, sheet: &Sheet) -> Vec<u8> {
        let (class, mut either, held) = (sheet.standing_so(Standing::In), sheet.standing_so(Standing::Either), sheet.holding());
        let others: Vec<u8> = if self.r.one_in(2) { class.clone() } else { held.iter().map(|&(c, _)| c).collect() };
        for _ in 0..self.r.of(&[1, 1, 2, 5]) {
            if !others.is_empty() {
                either.push(self.r.of(&others));
            }
        }
        either.sort_unstable();
        either.dedup();
        laid(sheet.marks, &class, Some(&either), &held, &sheet.groups)
    }

    /// A form with other groups at the end, or the same, whether the standings fit them or not; perhaps with another count, cut off or with bytes behind.
    fn other_end(&mut self, mut sheet: Sheet) -> Vec<u8> {
        if sheet.groups.is_empty() || self.r.one_in(2) {
            sheet.groups = self.groups(sheet.marks);
        }
        if self.r.one_in(2) {
            let c = self.r.below(sheet.size()) as usize;
            sheet.standing[c] = self.r.of(&[Standing::In, Standing::Out, Standing::Either]);
        }
        let mut form = sheet.form();
        let plain = Sheet { groups: Vec::new(), ..sheet }.form().len();
        let tail = (form.len() - plain) as u64;
        match self.r.below(8) {
            0 | 1 if tail > 0 => form[plain] = self.r.of(&[0, 1, 2, 3, 4, 255]),
            2 if tail > 0 => form[plain + 1] = self.r.of(&[1, 2, 128, 255]),
            3 if tail > 0 => form.truncate(plain + self.r.below(tail) as usize),
            4 => {
                let n = 1 + self.r.below(4);
                form.extend(self.r.bytes(n));
            }
            _ => {}
        }
        form
    }

    /// Bytes that are a sheet in either form: three held combinations of the old one are three either combinations, a count, and two held ones.
    fn both_forms(&mut self) -> Vec<u8> {
        let marks = self.r.of(&[3, 4, 5]);
        let mut some: Vec<u8> = (0..1 << marks).collect();
        self.shuffle(&mut some);
        let (five, rest) = some.split_at_mut(5);
        let class = &mut rest[..self.r.below(4) as usize];
        five.sort_unstable();
        class.sort_unstable();
        let [a, b, c, d, e] = self.r.of(&[[0, 1, 2, 3, 4], [0, 2, 4, 1, 3], [0, 3, 4, 1, 2], [0, 1, 4, 2, 3]]).map(|i: usize| five[i]);
        let seconds = u64::from(b) | u64::from(c) << 8 | 2 << 16;
        laid(marks, class, None, &[(a, seconds), (d, 1 + self.r.below(9)), (e, 1 + self.r.below(9))], &[])
    }

    /// A form damaged in one place. `counts` says where those of its sections stand; what is held is the last, but for a profile.
    fn damaged(&mut self, mut form: Vec<u8>, counts: &[usize]) -> Vec<u8> {
        let n = form.len() as u64;
        let i = self.r.below(n) as usize;
        let count = self.r.of(counts);
        match self.r.below(14) {
            0 => form.truncate(i),
            1 => form.extend(self.r.bytes(1)),
            2 => {
                let m = self.r.below(40);
                form.extend(self.r.bytes(m));
            }
            3 => form[0] = self.r.of(&[0, 1, 2, 3, 4, 5, 6, 64, 69, 255]),
            4 => form[i] ^= 1 << self.r.below(8),
            5 => form[i] = self.r.next() as u8,
            6 => form[i] = form[i].wrapping_add(self.r.of(&[1, 255])),
            7 | 8 => form[count] = form[count].wrapping_add(self.r.of(&[1, 255, 32])),
            9 => form[count + 1] = self.r.of(&[1, 2, 128, 255]),
            10 => form.swap(i, (i + 1) % n as usize),
            11 => {
                form.remove(i);
            }
            12 => return self.heavy(counts[counts.len() - 1], form),
            _ => {
                let m = self.r.of(&[0, 0, 1, 2, 3, 4, 5, 6, 7, 8, 20, 197, 199, 203, 2000]);
                form = self.r.bytes(m);
                if let Some(b) = form.first_mut() {
                    *b %= 7;
                }
            }
        }
        form
    }

    /// Other seconds in one held combination: 0, or such that some sum goes above the limit, by one or by much.
    fn heavy(&mut self, last: usize, mut form: Vec<u8>) -> Vec<u8> {
        let held = (form.len() - last - 2) / 5;
        if held > 0 {
            let at = last + 3 + 5 * self.r.below(held as u64) as usize;
            let top = MOST_HELD as u32;
            let seconds: u32 = self.r.of(&[0, 1, top - 1, top, top + 1, u32::MAX, 1 << 31]);
            form[at..at + 4].copy_from_slice(&seconds.to_le_bytes());
        }
        form
    }

    /// An area for `needed` bytes: of every length around that, or any.
    fn room(&mut self, needed: usize) -> Vec<u8> {
        let n = match self.r.below(8) {
            0 => self.r.below(needed as u64 + 1),
            1 => self.r.below(250),
            2 => 0,
            3 => self.r.of(&[197, 199, 203]),
            _ => (needed as u64 + self.r.below(7)).saturating_sub(3),
        };
        self.r.bytes(n)
    }

    /// A call that writes into an area, the last that is lent, if that has as many bytes as are needed.
    fn writing(&mut self, entry: usize, numbers: [u64; 2], sheet: Option<Vec<u8>>, written: Written, needed: usize, room: Vec<u8>) -> Call {
        let mut areas: Vec<Area> = sheet.into_iter().map(|s| Area::new(&mut self.r, s)).collect();
        let out = Area::new(&mut self.r, room);
        let mut later: Vec<Vec<u8>> = areas.iter().map(Area::all).collect();
        let mut all = out.all();
        let reply = match written {
            Err(reply) => reply,
            Ok(_) if out.bytes.len() < needed => refused(5),
            Ok(written) => {
                all[out.before.len()..][..written.len()].copy_from_slice(&written);
                done(written.len() as u64)
            }
        };
        later.push(all);
        areas.push(out);
        Call { entry, numbers, areas, reply, later }
    }

    /// A call that writes nothing.
    fn telling(&mut self, entry: usize, numbers: [u64; 2], lent: Vec<Vec<u8>>, reply: Reply) -> Call {
        let areas: Vec<Area> = lent.into_iter().map(|bytes| Area::new(&mut self.r, bytes)).collect();
        let later = areas.iter().map(Area::all).collect();
        Call { entry, numbers, areas, reply, later }
    }

    fn open(&mut self) -> Call {
        let marks = self.number(6);
        let written = Sheet::open(marks).map(|s| s.form());
        let room = self.room(7);
        self.writing(0, [marks, 0], None, written, 7, room)
    }

    fn open_profile(&mut self) -> Call {
        let marks = self.number(6);
        let groups = self.groups(marks.min(5) as u32);
        let written = Sheet::open_profile(marks, &groups).map(|s| s.form());
        let needed = written.as_ref().map_or(20, Vec::len);
        let room = self.room(needed);
        self.writing(19, [marks, 0], Some(groups), written, needed, room)
    }

    /// An opening under these groups, into an area of just the size.
    fn opening_of(&mut self, marks: u64, groups: &[u8]) -> Call {
        let written = Sheet::open_profile(marks, groups).map(|s| s.form());
        let needed = written.as_ref().map_or(0, Vec::len);
        let room = self.r.bytes(needed as u64);
        self.writing(19, [marks, 0], Some(groups.to_vec()), written, needed, room)
    }

    /// One of the calls that change a sheet. What was accepted takes the old sheet's place among those that later calls are made on.
    fn change(&mut self, entry: usize) -> Call {
        let form = self.form();
        let read = Sheet::read(&form);
        let like = read.clone().unwrap_or(self.pool[0].clone());
        let c = self.number(like.size());
        let seconds = self.seconds(&like, c);
        let changed = read.and_then(|sheet| changed(entry, sheet, c, seconds));
        let written = changed.as_ref().map(Sheet::form).map_err(|&refusal| refusal);
        let needed = written.as_ref().map_or(60, Vec::len);
        let room = self.room(needed);
        let call = self.writing(entry, [c, seconds], Some(form), written, needed, room);
        if let (0, Ok(sheet)) = (call.reply.answer, changed) {
            let at = self.r.below(self.pool.len() as u64) as usize;
            self.pool[at] = sheet;
        }
        call
    }

    /// A change of what is in these bytes, into an area of just the size.
    fn change_of(&mut self, entry: usize, form: Vec<u8>, c: u64, seconds: u64) -> Call {
        let written = Sheet::read(&form).and_then(|sheet| changed(entry, sheet, c, seconds)).map(|s| s.form());
        let needed = written.as_ref().map_or(0, Vec::len);
        let room = self.r.bytes(needed as u64);
        self.writing(entry, [c, seconds], Some(form), written, needed, room)
    }

    fn from_form1(&mut self) -> Call {
        let old = self.old_form();
        let written = Sheet::read_form1(&old).map(|s| s.form());
        let needed = written.as_ref().map_or(60, Vec::len);
        let room = self.room(needed);
        self.writing(18, [0, 0], Some(old), written, needed, room)
    }

    fn list(&mut self) -> Call {
        let form = self.form();
        let read = Sheet::read(&form);
        let needed = read.as_ref().map_or(16, |s| s.list_room()) as usize;
        let written = read.map(|s| self.lists.first_shortest(&s));
        let room = self.room(needed);
        self.writing(6, [0, 0], Some(form), written, needed, room)
    }

    /// The list of a class, into an area of just the size for it.
    fn list_of(&mut self, sheet: &Sheet) -> Call {
        let written = self.lists.first_shortest(sheet);
        let room = self.r.bytes(sheet.list_room());
        self.writing(6, [0, 0], Some(sheet.form()), Ok(written), sheet.list_room() as usize, room)
    }

    fn told(&mut self, entry: usize) -> Call {
        let form = self.form();
        let read = Sheet::read(&form);
        let line = self.number(read.as_ref().map_or(243, |s| 3u64.pow(s.marks)));
        let reply = match read {
            Err(reply) => reply,
            Ok(s) => done(match entry {
                7 => s.class_size(),
                8 => s.total(),
                9 => s.outside(line),
                17 => s.either(line),
                _ => s.held_in(line),
            }),
        };
        self.telling(entry, [line, 0], vec![form], reply)
    }

    fn before(&mut self) -> Call {
        let n = self.r.below(40);
        let first = self.r.bytes(n);
        let mut second = first.clone();
        match self.r.below(4) {
            0 => {
                let n = self.r.below(40);
                second = self.r.bytes(n);
            }
            1 if n > 0 => {
                let i = self.r.below(n) as usize;
                second[i] = self.r.next() as u8;
            }
            2 => second.push(self.r.next() as u8),
            _ => {}
        }
        let (first, second) = if self.r.one_in(2) { (first, second) } else { (second, first) };
        let reply = done(u64::from(is_before(&second, &first)));
        self.telling(11, [0, 0], vec![first, second], reply)
    }

    /// A running time in either form, or one that misses its form by a number that is too small, too large, or has a digit too many or too few.
    fn time(&mut self) -> String {
        let minutes = self.r.of(&[0, 1, 5, 9, 10, 59, 60, 99, 100, 598, 599]);
        let minutes = if self.r.one_in(2) { minutes } else { self.r.below(600) };
        let any = (1 + self.r.below(9), self.r.below(60), self.r.below(60));
        let (hours, part, seconds) = if self.r.one_in(4) { self.r.of(&[(1, 0, 0), (1, 59, 59), (9, 0, 0), (9, 59, 59)]) } else { any };
        let beyond = self.r.of(&[60, 61, 66, 69, 70, 90, 99, 100, 599, 600]);
        match self.r.below(26) {
            0..=6 => format!("{minutes}:{seconds:02}"),
            7..=13 => format!("{hours}:{part:02}:{seconds:02}"),
            14 => format!("{}:{seconds:02}", self.r.of(&[600, 601, 660, 700, 999, 1000, 1234, 5990, 65_536])),
            15 => format!("{minutes}:{beyond}"),
            16 => format!("{minutes}:{}", seconds % 10),
            17 => format!("0{minutes}:{seconds:02}"),
            18 => format!("{}:{part:02}:{seconds:02}", self.r.of(&[0, 0, 10, 10, 11, 12, 59, 60, 99, 100, 599, 600])),
            19 => format!("{hours}:{beyond}:{seconds:02}"),
            20 => format!("{hours}:{part:02}:{beyond}"),
            21 => format!("0{hours}:{part:02}:{seconds:02}"),
            22 => format!("{hours}:{}:{seconds:02}", part % 10),
            23 => format!("{hours}:{part:02}:{}", seconds % 10),
            24 => format!("{hours}:{part:02}:{seconds:02}:{seconds:02}"),
            _ => self.r.of(&["1:30:", "1::30", "1:30::00", "1::30:00", ":30:00", "1:30:00:", "0:00:00", "0:00"]).to_string(),
        }
    }

    fn read_time(&mut self) -> Call {
        let mut text = self.time().into_bytes();
        let spoiled = self.r.of(&[0, 0, 0, 1, 1, 2]);
        for _ in 0..spoiled {
            let i = self.r.below(text.len() as u64 + 1) as usize;
            let c = self.r.of(b"0123456789:::  +-./;\n\0\xb0\xba\xff");
            match self.r.below(5) {
                0 => text.truncate(i),
                1 if i < text.len() => text[i] = c,
                2 if i < text.len() => {
                    text.remove(i);
                }
                3 => text.insert(i, c),
                _ => text.push(c),
            }
        }
        match self.r.below(24) {
            0 => {
                let n = self.r.of(&[1, 2, 4, 7, 20, 249, 252, 256, 300, 5000]);
                text.extend((0..n).map(|_| self.r.of(b"0123456789:::")));
            }
            1 => {
                let n = self.r.below(12);
                text = (0..n).map(|_| self.r.of(b"0123456789::::")).collect();
            }
            2 => {
                let n = self.r.below(300);
                text = self.r.bytes(n);
            }
            _ => {}
        }
        let reply = self.times.read(&text);
        self.telling(12, [0, 0], vec![text], reply)
    }

    /// Spaces and tabs, at least some.
    fn gap(&mut self, least: usize) -> Vec<u8> {
        let n = least + if self.r.one_in(8) { self.r.below(4) as usize } else { 0 };
        (0..n).map(|_| if self.r.one_in(3) { b'\t' } else { b' ' }).collect()
    }

    fn comment(&mut self) -> Vec<u8> {
        let n = self.r.of(&[0, 1, 5, 20, 300]);
        let any = self.r.bytes(n).into_iter().filter(|&b| b != b'\n');
        [b'#'].into_iter().chain(any).collect()
    }

    fn line(&mut self, words: [&str; 2]) -> Vec<u8> {
        let mut line = [self.gap(0), words[0].into(), self.gap(1), words[1].into(), self.gap(0)].concat();
        if self.r.one_in(12) {
            line.extend(self.comment());
        }
        line
    }

    /// A number in words: the right one, or one that is near, that has its low bits, that has more zeros, or more digits than any type.
    fn count(&mut self, right: u64) -> String {
        let wide = u128::from(right);
        match self.r.below(16) {
            0 => (right + 1).to_string(),
            1 => right.saturating_sub(1).to_string(),
            2 => (wide + self.r.of(&[1 << 8, 1 << 16, 1 << 31, 1 << 32, 1 << 63, 1 << 64, 1 << 65, 1 << 96, 10 << 64])).to_string(),
            3 => format!("0{right}"),
            4 => self.r.of(&["0", "00", "5", "6", "07", "10", "99999999999999999999", "18446744073709551615", "1x", "٣"]).to_string(),
            5 => format!("{right}{}", "0".repeat(self.r.of(&[1, 19, 20, 39, 400]))),
            6 => format!("{}{right}", self.r.of(&["1", "9", "+", "-", "0x", "36893488147419103232"])),
            _ => right.to_string(),
        }
    }

    /// The lines of a text that can be read, if `good`; and mostly else.
    fn drawing(&mut self, good: bool, most: u64) -> Vec<Vec<u8>> {
        let marks = self.r.of(&[1, 2, 3, 4, 5, 5]);
        let n = if self.r.one_in(8) { self.r.below(most) } else { self.r.below(12) };
        let mut lines = Vec::new();
        let inputs = if good { marks.to_string() } else { self.count(u64::from(marks)) };
        lines.push(self.line([".i", &inputs]));
        lines.push(self.line([".o", "1"]));
        for _ in 0..n {
            let b = self.r.below(3u64.pow(marks));
            lines.push(self.line([&cube(marks, b), "1"]));
        }
        if !self.r.one_in(4) {
            let count = if good { n.to_string() } else { self.count(n) };
            let at = if self.r.one_in(2) { 2 } else { self.r.below(lines.len() as u64 + 1) as usize };
            let line = self.line([".p", &count]);
            lines.insert(at, line);
        }
        for _ in 0..self.r.of(&[0, 0, 0, 1, 2]) {
            let at = self.r.below(lines.len() as u64 + 1) as usize;
            let blank = if self.r.one_in(2) { self.gap(0) } else { self.comment() };
            lines.insert(at, blank);
        }
        if !self.r.one_in(3) {
            lines.push([self.gap(0), self.r.of(&[".e", ".e", ".e ", ".e junk", ".e#", ".e .i 9"]).into()].concat());
            if self.r.one_in(3) {
                let n = self.r.below(60);
                lines.push(self.r.bytes(n));
            }
        }
        lines
    }

    /// Lines exchanged, left out, twice, or others among them; where all are left out, there is nothing more to do.
    fn disorder(&mut self, lines: &mut Vec<Vec<u8>>) {
        let n = lines.len() as u64;
        if n == 0 {
            return;
        }
        let i = self.r.below(n) as usize;
        let j = self.r.below(n) as usize;
        let odd = self.r.of(&ODD_LINES).as_bytes().to_vec();
        match self.r.below(9) {
            0 => lines.swap(i, j),
            1 => lines.swap(i, (i + 1) % n as usize),
            2 => lines.insert(j, lines[i].clone()),
            3 => lines.insert(i, lines[i].clone()),
            4 => {
                lines.remove(i);
            }
            5 => lines[i] = odd,
            6 => lines.insert(i, odd),
            7 => {
                let word = self.r.of(&[".i", ".p"]);
                let right = self.r.of(&[1, 2, 3, 4, 5, n.saturating_sub(4)]);
                let count = self.count(right);
                let line = self.line([word, &count]);
                lines.insert(i, line);
            }
            _ => lines[i].extend(odd),
        }
    }

    /// Another byte, a byte more, a byte fewer, or an end.
    fn damage(&mut self, text: &mut Vec<u8>) {
        let i = self.r.below(text.len() as u64 + 1) as usize;
        let sign = self.r.of(SIGNS);
        match self.r.below(8) {
            0 => text.truncate(i),
            1 => text.insert(i, sign),
            2 => text.splice(..0, [sign]).for_each(drop),
            3 => text.push(sign),
            _ if i == text.len() => text.insert(i, self.r.next() as u8),
            4 => text[i] ^= 1 << self.r.below(8),
            5 => text[i] = self.r.next() as u8,
            6 => {
                text.remove(i);
            }
            _ => text[i] = sign,
        }
    }

    /// A PLA text: one that can be read, one with numbers, lines or bytes that are not as they should be, or any bytes.
    fn text(&mut self) -> Vec<u8> {
        let kind = self.r.below(24);
        let most = if kind == 0 && self.r.one_in(8) { 5000 } else { 300 };
        let mut lines = self.drawing(kind % 2 == 0, most);
        if kind % 3 == 1 {
            for _ in 0..=self.r.below(3) {
                self.disorder(&mut lines);
            }
        }
        let mut text = lines.join(&b'\n');
        if !self.r.one_in(4) {
            text.push(b'\n');
        }
        match kind {
            2 | 5 | 8 | 11 | 14 => (0..=self.r.below(3)).for_each(|_| self.damage(&mut text)),
            17 => text = text.into_iter().flat_map(|b| if b == b'\n' { vec![b'\r', b'\n'] } else { vec![b] }).collect(),
            20 => {
                let n = self.r.below(80);
                text = (0..n).map(|_| self.r.of(SIGNS)).collect();
            }
            23 => {
                let n = self.r.of(&[0, 0, 1, 2, 100, 3000]);
                text = self.r.bytes(n);
            }
            _ => {}
        }
        text.truncate(60_000);
        text
    }

    fn read_pla(&mut self) -> Call {
        let text = self.text();
        let written = read_pla(&text).map(|s| s.form());
        let needed = written.as_ref().map_or(20, Vec::len);
        let room = self.room(needed);
        self.writing(13, [0, 0], Some(text), written, needed, room)
    }

    fn write_pla(&mut self) -> Call {
        let form = self.form();
        let written = Sheet::read(&form).map(|s| pla(s.marks, &self.lists.first_shortest(&s)));
        let needed = written.as_ref().map_or(60, Vec::len);
        let room = self.room(needed);
        self.writing(14, [0, 0], Some(form), written, needed, room)
    }

    /// The PLA text of a class, and that text read, into areas of just the size.
    fn pla_of(&mut self, sheet: &Sheet) -> [Call; 2] {
        let list = self.lists.first_shortest(sheet);
        let (text, read) = (pla(sheet.marks, &list), sheet.covered_by(&list).form());
        let (room, back) = (self.r.bytes(text.len() as u64), self.r.bytes(read.len() as u64));
        let write = self.writing(14, [0, 0], Some(sheet.form()), Ok(text.clone()), text.len(), room);
        let read = self.writing(13, [0, 0], Some(text), Ok(read), back.len(), back);
        [write, read]
    }

    /// Two lines in place of one: with one of its free marks off, and on. If it has none, it stays.
    fn split(&mut self, marks: u32, list: &mut Vec<u8>, i: usize) {
        let free: Vec<u8> = (0..marks).map(|k| 3u8.pow(k)).filter(|d| list[i] / d % 3 == 2).collect();
        if !free.is_empty() {
            let d = self.r.of(&free);
            list[i] -= d;
            let at = self.r.below(list.len() as u64 + 1) as usize;
            list.insert(at, list[i] - d);
        }
    }

    /// A line with one more mark free, and, if so wished, without the line that has then become a part of it: the two in one.
    fn widen(&mut self, marks: u32, list: &mut Vec<u8>, i: usize, merge: bool) {
        let fixed: Vec<u8> = (0..marks).map(|k| 3u8.pow(k)).filter(|d| list[i] / d % 3 != 2).collect();
        if !fixed.is_empty() {
            let other = |d: u8| if list[i] / d % 3 == 0 { list[i].wrapping_add(d) } else { list[i] - d };
            let paired: Vec<u8> = fixed.iter().copied().filter(|&d| list.contains(&other(d))).collect();
            let d = self.r.of(if merge && !paired.is_empty() { &paired } else { &fixed });
            let part = other(d);
            list[i] = list[i].max(part).wrapping_add(d);
            if merge {
                list.retain(|&b| b != part);
            }
        }
    }

    /// One thing done to a list: another order, a line gone, there twice, in two, wider, another one, or a number that may be no line.
    fn redraw(&mut self, marks: u32, list: &mut Vec<u8>) {
        let lines = 3u64.pow(marks);
        let n = list.len() as u64;
        let (at, to) = (self.r.below(n + 1) as usize, self.r.below(n + 1) as usize);
        let any = self.r.below(lines) as u8;
        let beyond = (lines + self.r.below(256 - lines)) as u8;
        let near = self.r.of(&[lines as u8, lines as u8 - 1, 255, 243, 242]);
        match self.r.below(12) {
            0 => list.insert(at, any),
            1 if self.r.one_in(3) => list.insert(at, beyond),
            2 if self.r.one_in(3) => list.insert(at, near),
            _ if at == list.len() => {}
            3 => {
                list.remove(at);
            }
            4 => list.insert(to, list[at]),
            5 | 6 => self.split(marks, list, at),
            7 | 8 => self.widen(marks, list, at, true),
            9 => self.widen(marks, list, at, false),
            10 => list[at] = any,
            11 if self.r.one_in(3) => list[at] = beyond,
            _ => list.swap(at, to % n as usize),
        }
    }

    fn shuffle(&mut self, list: &mut [u8]) {
        for i in (1..list.len()).rev() {
            list.swap(i, self.r.below(i as u64 + 1) as usize);
        }
    }

    /// More lines than a sheet has combinations: many times the same, or any, and perhaps one number that is no line, anywhere.
    fn long_list(&mut self, lines: u64) -> Vec<u8> {
        let n = self.r.of(&[33, 100, 243, 244, 255, 256, 257, 258, 1000, 5000, 65_535, 65_536, 65_537, 70_000]);
        let n = if n > 1000 && !self.r.one_in(8) { 300 } else { n };
        let one = self.r.below(lines) as u8;
        let mut list = if self.r.one_in(2) { vec![one; n] } else { (0..n).map(|_| self.r.below(lines) as u8).collect() };
        if !self.r.one_in(3) {
            let any = self.r.below(n as u64) as usize;
            let at = self.r.of(&[0, n - 1, n - 2, any]);
            list[at] = (lines + self.r.below(256 - lines)) as u8;
        }
        list
    }

    /// Lines of an either combination alone, somewhere in a list: faults only where a line of it has the combination already.
    fn add_either(&mut self, sheet: &Sheet, list: &mut Vec<u8>) {
        let either = sheet.standing_so(Standing::Either);
        for _ in 0..self.r.of(&[1, 1, 2, 4]) {
            if !either.is_empty() {
                let c = self.r.of(&either);
                let at = self.r.below(list.len() as u64 + 1) as usize;
                list.insert(at, (0..sheet.marks).map(|i| (c >> i & 1) * 3u8.pow(i)).sum());
            }
        }
    }

    /// A list for a sheet, as another archive might draw it: the sheet's own, or that of another class, its lines cut in pieces, in any order, with lines of
    /// either combinations alone, and some things done to it; or a long one, or any bytes, or none.
    fn drawn_list(&mut self, sheet: &Sheet) -> Vec<u8> {
        let (kind, n) = (self.r.below(32), self.r.below(40));
        match kind {
            0 => return self.r.bytes(n),
            1 => return (0..n).map(|_| self.r.below(3u64.pow(sheet.marks)) as u8).collect(),
            2 | 3 => return self.long_list(3u64.pow(sheet.marks)),
            4 => return Vec::new(),
            _ => {}
        }
        let other = self.r.below(self.pool.len() as u64) as usize;
        let of = if kind == 5 { &self.pool[other] } else { sheet };
        let (marks, mut list) = (of.marks, self.lists.first_shortest(of));
        for _ in 0..self.r.of(&[0, 0, 1, 3, 8, 40]) {
            if !list.is_empty() {
                let i = self.r.below(list.len() as u64) as usize;
                self.split(marks, &mut list, i);
            }
        }
        if !self.r.one_in(4) {
            self.shuffle(&mut list);
        }
        if self.r.one_in(4) {
            self.add_either(sheet, &mut list);
        }
        for _ in 0..self.r.of(&[0, 0, 1, 1, 1, 2, 3]) {
            self.redraw(sheet.marks, &mut list);
        }
        list
    }

    fn check_list(&mut self) -> Call {
        let form = self.form();
        let read = Sheet::read(&form);
        let like = read.clone().unwrap_or(self.pool[0].clone());
        let list = self.drawn_list(&like);
        let reply = read.map_or_else(|refusal| refusal, |s| s.check(&list));
        self.telling(15, [0, 0], vec![form, list], reply)
    }

    /// The list of a class, its PLA text, that text read back, and two checks.
    fn lists_of(&mut self, sheet: &Sheet) -> Vec<Call> {
        let mut calls = vec![self.list_of(sheet)];
        calls.extend(self.pla_of(sheet));
        calls.extend(self.checks_of(sheet));
        calls
    }

    /// The list of a class checked, and one that someone else drew.
    fn checks_of(&mut self, sheet: &Sheet) -> [Call; 2] {
        let own = self.lists.first_shortest(sheet);
        let other = self.drawn_list(sheet);
        let reply = sheet.check(&other);
        let fits = self.telling(15, [0, 0], vec![sheet.form(), own], done(0));
        [fits, self.telling(15, [0, 0], vec![sheet.form(), other], reply)]
    }

    fn call(&mut self) -> Call {
        match self.r.below(56) {
            53..=55 => self.open_profile(),
            40..=45 => self.check_list(),
            46..=48 => self.change(16),
            49..=50 => self.told(17),
            51..=52 => self.from_form1(),
            26..=32 => self.read_pla(),
            33..=35 => self.write_pla(),
            36..=39 => self.read_time(),
            0 => self.open(),
            1..=3 => self.change(1),
            4..=6 => self.change(2),
            7..=9 => self.change(3),
            10..=12 => self.change(4),
            13..=14 => self.change(5),
            15..=17 => self.list(),
            18 => self.told(7),
            19 => self.told(8),
            20..=21 => self.told(9),
            22..=23 => self.told(10),
            24 => self.before(),
            _ => self.read_time(),
        }
    }
}

/// Every sheet of these marks whose combinations have these standings and that holds nothing.
fn every(marks: u64, standings: &'static [Standing]) -> impl Iterator<Item = Sheet> {
    let n = standings.len() as u64;
    (0..n.pow(1 << marks)).map(move |number| {
        let mut sheet = Sheet::open(marks).unwrap();
        for (c, standing) in sheet.standing.iter_mut().enumerate() {
            *standing = standings[(number / n.pow(c as u32) % n) as usize];
        }
        sheet
    })
}

const STANDINGS: [Standing; 3] = [Standing::Out, Standing::In, Standing::Either];

/// Every sheet of one to three marks that holds nothing, and every one of four marks without either combinations.
fn every_sheet() -> impl Iterator<Item = Sheet> {
    (1..=3).flat_map(|marks| every(marks, &STANDINGS)).chain(every(4, &STANDINGS[..2]))
}

/// No group, every one, and every two of them.
fn every_groups() -> impl Iterator<Item = Vec<u8>> {
    let pairs = (0..=255).flat_map(|first| (0..=255).map(move |second| vec![first, second]));
    std::iter::once(Vec::new()).chain((0..=255).map(|group| vec![group])).chain(pairs)
}

/// A sheet opened under every profile of these marks.
fn every_profile(marks: u64) -> impl Iterator<Item = Sheet> {
    every_groups().filter_map(move |groups| Sheet::open_profile(marks, &groups).ok())
}

/// Sheets with every profile at the end of their form, which it may not fit: up to three marks all of them, above that each in which one combination that
/// breaks the profile is not either.
fn every_fit() -> impl Iterator<Item = Sheet> {
    let all = |like: Sheet| every(u64::from(like.marks), &STANDINGS).map(move |sheet| Sheet { groups: like.groups.clone(), ..sheet });
    let one = |like: Sheet| {
        let breaking: Vec<usize> = (0..like.standing.len()).filter(|&c| like.breaks(c)).collect();
        breaking.into_iter().flat_map(move |c| {
            [Standing::In, Standing::Out].map(|standing| {
                let mut sheet = like.clone();
                sheet.standing[c] = standing;
                sheet
            })
        })
    };
    (1..=3).flat_map(every_profile).flat_map(all).chain((4..=5).flat_map(every_profile).flat_map(one))
}

/// A sheet that is opened under a profile, and three in which the other combinations stand by turns, in the last of which they hold something.
fn by_turns(opened: &Sheet) -> [Sheet; 4] {
    let others: Vec<usize> = (0..opened.standing.len()).filter(|&c| !opened.breaks(c)).collect();
    let turned = |turn: usize| {
        let mut sheet = opened.clone();
        for (i, &c) in others.iter().enumerate() {
            sheet.standing[c] = STANDINGS[(i + turn) % 3];
            sheet.held[c] = if turn == 2 && sheet.standing[c] != Standing::Either { 1 + i as u64 } else { 0 };
        }
        sheet
    };
    [opened.clone(), turned(0), turned(1), turned(2)]
}

/// What is compared in full, before the random calls.
enum Whole {
    /// A sheet, by its lists.
    Sheet(Sheet),
    /// An opening under groups.
    Opening(u64, Vec<u8>),
    /// A profile, by the sheet that is opened under it: every change of it.
    Profile(Sheet),
    /// A sheet with groups at the end of its form, which its standings fit or not.
    Fit(Sheet),
}

fn whole() -> impl Iterator<Item = Whole> {
    let openings = (0..=6).flat_map(|marks| every_groups().map(move |groups| Whole::Opening(marks, groups)));
    let profiles = (1..=5).flat_map(every_profile).map(Whole::Profile);
    every_sheet().map(Whole::Sheet).chain(openings).chain(profiles).chain(every_fit().map(Whole::Fit))
}

impl Tests {
    /// Every change of every combination, and of a number that is none, of the sheets under a profile; and their lists.
    fn under_profile(&mut self, opened: &Sheet) -> Vec<Call> {
        let mut calls = Vec::new();
        for sheet in by_turns(opened) {
            for c in 0..=sheet.size() {
                calls.extend([1, 2, 16, 3, 4].map(|entry| self.change_of(entry, sheet.form(), c, 1)));
            }
            calls.push(self.change_of(5, sheet.form(), 0, 0));
            calls.extend(self.lists_of(&sheet));
        }
        calls
    }

    fn calls_of(&mut self, whole: Whole) -> Vec<Call> {
        match whole {
            Whole::Sheet(sheet) => self.lists_of(&sheet),
            Whole::Opening(marks, groups) => vec![self.opening_of(marks, &groups)],
            Whole::Profile(opened) => self.under_profile(&opened),
            Whole::Fit(sheet) => vec![self.change_of(5, sheet.form(), 0, 0)],
        }
    }
}

fn exchange(child: &mut Child, batch: &[Call]) -> std::io::Result<Vec<u8>> {
    let mut request = Vec::new();
    for call in batch {
        request.push(call.entry as u8);
        request.extend(call.numbers.iter().flat_map(|n| n.to_le_bytes()));
        call.areas.iter().for_each(|a| a.send(&mut request));
    }
    let to = child.stdin.as_mut().unwrap();
    to.write_all(&(request.len() as u32).to_le_bytes())?;
    to.write_all(&request)?;
    to.flush()?;
    let from = child.stdout.as_mut().unwrap();
    let mut size = [0; 4];
    from.read_exact(&mut size)?;
    let mut replies = vec![0; u32::from_le_bytes(size) as usize];
    from.read_exact(&mut replies)?;
    Ok(replies)
}

/// The reply at the front of the bytes, and what stands in the areas of the call.
fn taken(call: &Call, bytes: &mut &[u8]) -> Option<(Reply, Vec<Vec<u8>>)> {
    let mut take = |n: usize| {
        let (front, rest) = bytes.split_at_checked(n)?;
        *bytes = rest;
        Some(front.to_vec())
    };
    let mut number = || Some(u64::from_le_bytes(take(8)?.try_into().ok()?));
    let reply = Reply { answer: number()?, place: number()?, value: number()?, form: number()?, fault: number()?, at: number()? };
    let later: Option<Vec<_>> = call.later.iter().map(|all| take(all.len())).collect();
    Some((reply, later?))
}

fn started(words: &[String]) -> Child {
    Command::new(&words[0]).args(&words[1..]).stdin(Stdio::piped()).stdout(Stdio::piped()).spawn().expect("the program starts")
}

/// The call of a batch that ends the program.
fn ending<'a>(words: &[String], batch: &'a [Call]) -> Option<&'a Call> {
    let mut child = started(words);
    batch.iter().find(|call| exchange(&mut child, std::slice::from_ref(*call)).is_err())
}

fn stop(why: &str) -> ! {
    println!("{why}");
    std::process::exit(1)
}

/// What was compared, by the entry and its answer, and of what is in the replies beside that.
struct Counts {
    answers: [[u64; 14]; NAMES.len()],
    forms: [u64; 3],
    faults: [u64; 5],
    /// By the variants of `Whole`.
    whole: [u64; 4],
}

impl Counts {
    fn begin(&mut self, whole: &Whole) {
        let kind = match whole {
            Whole::Sheet(_) => 0,
            Whole::Opening(..) => 1,
            Whole::Profile(_) => 2,
            Whole::Fit(_) => 3,
        };
        self.whole[kind] += 1;
    }

    fn add(&mut self, call: &Call) {
        self.answers[call.entry][call.reply.answer as usize] += 1;
        self.forms[call.reply.form as usize] += 1;
        if NAMES[call.entry] == "check_list" && call.reply.answer == 0 {
            self.faults[call.reply.fault as usize] += 1;
        }
    }

    fn made(&self) -> u64 {
        self.answers.iter().flatten().sum()
    }

    fn print(&self, calls: u64, seed: u64) {
        for (name, answers) in NAMES.iter().zip(&self.answers) {
            let given: Vec<String> = (0..answers.len()).filter(|&a| answers[a] > 0).map(|a| format!("{a}: {}", answers[a])).collect();
            println!("vault_{name:<12}{:>7} calls, by answer {}", answers.iter().sum::<u64>(), given.join(", "));
        }
        println!("running times that were read: {} in minutes, {} in hours", self.forms[MINUTES as usize], self.forms[HOURS as usize]);
        let [fit, no_box, overlap, leaves, uncovered] = [FITS, NO_BOX, OVERLAP, LEAVES, UNCOVERED].map(|f| self.faults[f as usize]);
        println!(
            "lists that were checked: {fit} fit, {no_box} have no box, {overlap} overlap, {leaves} leave the class, {uncovered} do not cover it"
        );
        let [sheets, openings, profiles, fits] = self.whole;
        println!("profiles: {openings} openings, every change under the {profiles} that there are, {fits} forms that fit theirs or do not");
        println!(
            "differential: all {sheets} sheets of up to three marks, and of four without either combinations, all profiles, and {calls} random calls \
             compared, no difference (seed {seed})"
        );
    }
}

/// The calls of a batch: what is compared in full, and then random ones, of which so many are left.
fn batch(tests: &mut Tests, whole: &mut impl Iterator<Item = Whole>, counts: &mut Counts, left: &mut u64) -> Vec<Call> {
    let mut batch: Vec<Call> = Vec::new();
    while batch.len() < 512 && batch.iter().map(Call::size).sum::<usize>() < MOST_BYTES {
        match whole.next() {
            Some(whole) => {
                counts.begin(&whole);
                batch.extend(tests.calls_of(whole));
            }
            None if *left == 0 => break,
            None => {
                *left -= 1;
                batch.push(tests.call());
            }
        }
    }
    batch
}

/// Each reply must be the model's.
fn compare(batch: &[Call], replies: &[u8], counts: &mut Counts) {
    let mut rest = replies;
    for call in batch {
        let got = taken(call, &mut rest);
        if got != Some((call.reply, call.later.clone())) {
            stop(&format!("call {}, vault_{}, differs\n{call:x?}\ngot {got:x?}", counts.made() + 1, NAMES[call.entry]));
        }
        counts.add(call);
    }
    if !rest.is_empty() {
        stop("the program says more than was asked");
    }
}

fn main() {
    let words: Vec<String> = std::env::args().collect();
    if words.len() < 4 {
        stop("differential CALLS SEED PROGRAM WORD..");
    }
    let calls: u64 = words[1].parse().expect("a number of calls");
    let seed: u64 = words[2].parse().expect("a seed");
    let mut child = started(&words[3..]);
    let mut tests = Tests { r: Random::new(seed), lists: Lists::new(), times: Times::new(), pool: Vec::new() };
    for _ in 0..64 {
        let sheet = tests.sheet();
        tests.pool.push(sheet);
    }
    let mut counts = Counts { answers: [[0; 14]; NAMES.len()], forms: [0; 3], faults: [0; 5], whole: [0; 4] };
    let (mut whole, mut left) = (whole(), calls);
    loop {
        let batch = batch(&mut tests, &mut whole, &mut counts, &mut left);
        if batch.is_empty() {
            break;
        }
        let Ok(replies) = exchange(&mut child, &batch) else {
            stop(&format!("the program ended behind call {}, {:?}, by\n{:x?}", counts.made(), child.wait(), ending(&words[3..], &batch)));
        };
        compare(&batch, &replies, &mut counts);
    }
    drop(child.stdin.take());
    if !child.wait().is_ok_and(|s| s.success()) {
        stop("the program ended badly");
    }
    if [6, 11].iter().any(|&unused| counts.answers.iter().any(|answers| answers[unused] > 0)) {
        stop("a call was answered by a number that no entry gives");
    }
    counts.print(calls, seed);
}
