//! Audits a transcript as plain, unproved Rust would, to measure `daxwire audit` beside it.
//!
//!     rustc -O -o /tmp/audit examples/beside/audit.rs && examples/beside/big-audit | /tmp/audit
//!
//! Reads a script, a line `---`, and a transcript from standard input, and prints `legal` or `rule N line L`: the first
//! broken rule of docs/formats.md with the first line that breaks it. With the word `read` it only reads both. Of the
//! script it takes for granted that it keeps the limits of scripts.
use std::collections::BTreeMap;
use std::convert::TryFrom;
use std::io::{self, Read};

const CHUNK: u64 = 2_097_152;

enum Call {
    Read { file: usize, off: u64, len: u64 },
    Write { file: usize, off: u64, bytes: Vec<u8> },
    Fill { file: usize, off: u64, len: u64, byte: u8 },
    Size { file: usize },
    Truncate { file: usize, size: u64 },
    Hold { file: usize, chunk: u64, writes: bool },
    Load { hold: usize, off: u64, len: u64 },
    Store { hold: usize, off: u64, bytes: Vec<u8> },
    Release { hold: usize },
}

#[derive(PartialEq)]
struct Head {
    name: Vec<u8>,
    size: u64,
    fill: u8,
}

struct Script {
    ranges: u64,
    files: Vec<Head>,
    guests: Vec<Vec<Call>>,
}

enum Way {
    Req,
    Saw(u64),
    Via((u64, u64), Option<(u64, u64)>),
}

enum Log {
    Place { chunk: u64, range: u32, writes: bool },
    Upgrade { range: u32 },
    Remove { range: u32 },
}

struct Entry {
    guest: usize,
    call: usize,
    way: Way,
}

enum Answer {
    Bytes(Vec<u8>),
    Wrote(u64),
    Size(u64),
}

enum Line {
    Done { place: u64, answer: Answer },
    Held { end: u64, entry: u64, upto: u64 },
    Released,
    Busy { letters: Vec<u8> },
    Leased { count: u64 },
    NoHold,
    Past { end: u64 },
}

struct Part {
    head: Head,
    entries: Vec<Entry>,
    log: Vec<Log>,
    line: u64,
}

struct GuestPart {
    number: u64,
    lines: Vec<(usize, Line)>,
    line: u64,
}

struct Transcript {
    ranges: u64,
    files: Vec<Part>,
    guests: Vec<GuestPart>,
    end: u64,
}

// ---- words

fn number(word: &[u8]) -> Option<u64> {
    if word.is_empty() || word.len() > 20 || (word.len() > 1 && word[0] == b'0') {
        return None;
    }
    let mut n = 0u64;
    for b in word {
        if !b.is_ascii_digit() {
            return None;
        }
        n = n.checked_mul(10)?.checked_add((b - b'0') as u64)?;
    }
    Some(n)
}

fn small(word: &[u8]) -> Option<u32> {
    u32::try_from(number(word)?).ok()
}

fn digit(b: u8) -> Option<u8> {
    match b {
        b'0'..=b'9' => Some(b - b'0'),
        b'a'..=b'f' => Some(b - b'a' + 10),
        _ => None,
    }
}

fn hex(word: &[u8]) -> Option<Vec<u8>> {
    if word.len() % 2 != 0 {
        return None;
    }
    let mut bytes = Vec::with_capacity(word.len() / 2);
    for pair in word.chunks_exact(2) {
        bytes.push(digit(pair[0])? * 16 + digit(pair[1])?);
    }
    Some(bytes)
}

fn byte(word: &[u8]) -> Option<u8> {
    let bytes = hex(word)?;
    if bytes.len() == 1 { Some(bytes[0]) } else { None }
}

// ---- the script

fn file_of(files: &[Head], word: &[u8]) -> Option<usize> {
    files.iter().position(|f| f.name == word)
}

fn head(words: &[&[u8]]) -> Option<Head> {
    let fill = match words.get(2) {
        Some(word) => byte(word)?,
        None => 0,
    };
    Some(Head { name: words.first()?.to_vec(), size: number(words.get(1)?)?, fill })
}

fn call(files: &[Head], w: &[&[u8]]) -> Option<Call> {
    Some(match (w[0], &w[1..]) {
        (b"read", [f, off, len]) => Call::Read { file: file_of(files, f)?, off: number(off)?, len: number(len)? },
        (b"write", [f, off, bytes]) => Call::Write { file: file_of(files, f)?, off: number(off)?, bytes: hex(bytes)? },
        (b"fill", [f, off, len, b]) => {
            Call::Fill { file: file_of(files, f)?, off: number(off)?, len: number(len)?, byte: byte(b)? }
        }
        (b"size", [f]) => Call::Size { file: file_of(files, f)? },
        (b"truncate", [f, size]) => Call::Truncate { file: file_of(files, f)?, size: number(size)? },
        (b"hold", [f, chunk, mode]) => {
            Call::Hold { file: file_of(files, f)?, chunk: number(chunk)?, writes: *mode == b"w" }
        }
        (b"load", [h, off, len]) => Call::Load { hold: number(h)? as usize, off: number(off)?, len: number(len)? },
        (b"store", [h, off, bytes]) => Call::Store { hold: number(h)? as usize, off: number(off)?, bytes: hex(bytes)? },
        (b"release", [h]) => Call::Release { hold: number(h)? as usize },
        _ => return None,
    })
}

fn read_script(text: &[u8]) -> Option<Script> {
    let mut script = Script { ranges: 0, files: Vec::new(), guests: Vec::new() };
    for line in text.split(|b| *b == b'\n') {
        if line.first() == Some(&b'#') {
            continue;
        }
        let words: Vec<&[u8]> = line.split(|b| *b == b' ').filter(|w| !w.is_empty()).collect();
        match words.first() {
            None => {}
            Some(&b"ranges") => script.ranges = number(words.get(1)?)?,
            Some(&b"background") => {}
            Some(&b"file") => script.files.push(head(&words[1..])?),
            Some(&b"guest") => script.guests.push(Vec::new()),
            Some(_) => {
                let made = call(&script.files, &words)?;
                script.guests.last_mut()?.push(made);
            }
        }
    }
    Some(script)
}

// ---- the transcript

fn pair(k: &[u8], m: &[u8]) -> Option<(u64, u64)> {
    Some((number(k)?, number(m)?))
}

fn way(words: &[&[u8]]) -> Option<Way> {
    Some(match words {
        [b"req"] => Way::Req,
        [b"req", z] => Way::Saw(number(z)?),
        [b"via", k, m] => Way::Via(pair(k, m)?, None),
        [b"via", k, m, l, n] => Way::Via(pair(k, m)?, Some(pair(l, n)?)),
        _ => return None,
    })
}

fn log(words: &[&[u8]]) -> Option<Log> {
    Some(match words {
        [b"place", chunk, b"in", r, mode] if *mode == b"r" || *mode == b"w" => {
            Log::Place { chunk: small(chunk)? as u64, range: small(r)?, writes: *mode == b"w" }
        }
        [b"upgrade", r] => Log::Upgrade { range: small(r)? },
        [b"remove", r] => Log::Remove { range: small(r)? },
        _ => return None,
    })
}

fn line_of(words: &[&[u8]]) -> Option<Line> {
    Some(match words {
        [b"done", p, b"bytes", b"-"] => Line::Done { place: number(p)?, answer: Answer::Bytes(Vec::new()) },
        [b"done", p, b"bytes", bytes] => Line::Done { place: number(p)?, answer: Answer::Bytes(hex(bytes).filter(|b| !b.is_empty())?) },
        [b"done", p, b"wrote", n] => Line::Done { place: number(p)?, answer: Answer::Wrote(number(n)?) },
        [b"done", p, b"size", n] => Line::Done { place: number(p)?, answer: Answer::Size(number(n)?) },
        [b"held", z, b"via", k, m] => Line::Held { end: number(z)?, entry: number(k)?, upto: number(m)? },
        [b"released"] => Line::Released,
        [b"busy", letters] if letters.iter().all(|b| matches!(b, b'p' | b'm')) => Line::Busy { letters: letters.to_vec() },
        [b"leased", n] => Line::Leased { count: small(n)? as u64 },
        [b"nohold"] => Line::NoHold,
        [b"past", z] => Line::Past { end: number(z)? },
        _ => return None,
    })
}

fn read_transcript(text: &[u8]) -> Option<Transcript> {
    let mut lines = text.split(|b| *b == b'\n');
    if lines.next()? != b"transcript 1" {
        return None;
    }
    let mut t = Transcript { ranges: 0, files: Vec::new(), guests: Vec::new(), end: 0 };
    t.ranges = small(lines.next()?.strip_prefix(b"ranges ")?)? as u64;
    let mut words = Vec::new();
    for (n, line) in lines.by_ref().enumerate() {
        words.clear();
        words.extend(line.split(|b| *b == b' '));
        match words[0] {
            b"file" if t.guests.is_empty() && words.len() == 4 => t.files.push(Part { head: head(&words[1..])?, entries: Vec::new(), log: Vec::new(), line: n as u64 + 3 }),
            b"entry" if t.guests.is_empty() => {
                let part = t.files.last_mut()?;
                if !part.log.is_empty() {
                    return None;
                }
                let (guest, call) = (small(words.get(1)?)? as usize, small(words.get(2)?)? as usize);
                part.entries.push(Entry { guest, call, way: way(words.get(3..)?)? });
            }
            b"log" if t.guests.is_empty() => t.files.last_mut()?.log.push(log(&words[1..])?),
            b"guest" if words.len() == 2 => t.guests.push(GuestPart { number: small(words.get(1)?)? as u64, lines: Vec::new(), line: n as u64 + 3 }),
            b"end" if words.len() == 1 => {
                t.end = n as u64 + 3;
                break;
            }
            call => t.guests.last_mut()?.lines.push((small(call)? as usize, line_of(&words[1..])?)),
        }
    }
    let nothing: &[u8] = b"";
    if t.end > 0 && lines.next() == Some(nothing) && lines.next().is_none() { Some(t) } else { None }
}

// ---- what is looked up

/// What was before a call of a guest, and what it is on.
#[derive(Clone, Copy, Default)]
struct Seen {
    /// The call's file, and where its offsets count from.
    to: Option<(usize, u64)>,
    /// How much of the file's history the guest had seen.
    before: u64,
    /// What the guest has of the hold that the call uses: its end, and its placement.
    grant: Option<(u64, u64, u64)>,
}

/// Of each entry of a log, where behind it its range is removed next, and where upgraded next.
struct Lives {
    removed: Vec<usize>,
    upgraded: Vec<usize>,
}

impl Lives {
    fn new(log: &[Log]) -> Lives {
        let mut lives = Lives { removed: vec![log.len(); log.len()], upgraded: vec![log.len(); log.len()] };
        let (mut removals, mut upgrades) = (BTreeMap::new(), BTreeMap::new());
        for (at, entry) in log.iter().enumerate().rev() {
            match entry {
                Log::Place { range, .. } => {
                    lives.removed[at] = *removals.get(range).unwrap_or(&log.len());
                    lives.upgraded[at] = *upgrades.get(range).unwrap_or(&log.len());
                }
                Log::Upgrade { range } => {
                    upgrades.insert(*range, at);
                }
                Log::Remove { range } => {
                    removals.insert(*range, at);
                }
            }
        }
        lives
    }

    fn is_live(&self, log: &[Log], write: bool, chunk: u64, (entry, upto): (u64, u64)) -> bool {
        if entry >= upto || upto > log.len() as u64 {
            return false;
        }
        let at = entry as usize;
        match log[at] {
            Log::Place { chunk: c, writes, .. } => {
                c == chunk && upto <= self.removed[at] as u64 && (!write || writes || (self.upgraded[at] as u64) < upto)
            }
            _ => false,
        }
    }

    fn covers(&self, log: &[Log], write: bool, off: u64, len: u64, way: &Way) -> bool {
        let (first, last) = (off / CHUNK, (off + len - 1) / CHUNK);
        match way {
            Way::Via(k, None) => first == last && self.is_live(log, write, first, *k),
            Way::Via(k, Some(m)) => {
                first != last && self.is_live(log, write, first, *k) && self.is_live(log, write, last, *m)
            }
            _ => false,
        }
    }
}

fn op_len(call: &Call) -> (u64, u64) {
    match call {
        Call::Read { off, len, .. } | Call::Load { off, len, .. } | Call::Fill { off, len, .. } => (*off, *len),
        Call::Write { off, bytes, .. } | Call::Store { off, bytes, .. } => (*off, bytes.len() as u64),
        _ => (0, 0),
    }
}

struct Audit<'a> {
    script: &'a Script,
    t: &'a Transcript,
    holds: Vec<Vec<usize>>,
    seen: Vec<Vec<Seen>>,
    sizes: Vec<Vec<u64>>,
    right: Vec<Vec<bool>>,
    lives: Vec<Lives>,
}

type Fault = (u32, u64);

impl<'a> Audit<'a> {
    fn call(&self, guest: usize, call: usize) -> Option<&'a Call> {
        self.script.guests.get(guest)?.get(call)
    }

    fn line(&self, guest: usize, call: usize) -> Option<&'a Line> {
        Some(&self.t.guests.get(guest)?.lines.get(call)?.1)
    }

    fn held(&self, guest: usize, hold: usize) -> Option<(usize, u64, bool)> {
        match self.call(guest, *self.holds.get(guest)?.get(hold)?)? {
            Call::Hold { file, chunk, writes } => Some((*file, *chunk, *writes)),
            _ => None,
        }
    }

    fn target(&self, guest: usize, call: &Call) -> Option<(usize, u64)> {
        match call {
            Call::Read { file, .. }
            | Call::Write { file, .. }
            | Call::Fill { file, .. }
            | Call::Size { file }
            | Call::Truncate { file, .. }
            | Call::Hold { file, .. } => Some((*file, 0)),
            Call::Load { hold, .. } | Call::Store { hold, .. } | Call::Release { hold } => {
                let (file, chunk, _) = self.held(guest, *hold)?;
                Some((file, chunk * CHUNK))
            }
        }
    }

    fn grant(&self, guest: usize, hold: usize) -> Option<(u64, u64, u64)> {
        match self.line(guest, *self.holds.get(guest)?.get(hold)?)? {
            Line::Held { end, entry, upto } => Some((*end, *entry, *upto)),
            _ => None,
        }
    }

    fn each_call(&self, rule: u32, test: impl Fn(usize, usize, &Call, &Line) -> bool) -> Result<(), Fault> {
        for (guest, (calls, part)) in self.script.guests.iter().zip(&self.t.guests).enumerate() {
            for (call, (made, (_, line))) in calls.iter().zip(&part.lines).enumerate() {
                if !test(guest, call, made, line) {
                    return Err((rule, part.line + 1 + call as u64));
                }
            }
        }
        Ok(())
    }

    fn rule_1(&self) -> Result<(), Fault> {
        if self.t.ranges != self.script.ranges {
            return Err((1, 2));
        }
        for (n, part) in self.t.files.iter().enumerate() {
            if self.script.files.get(n) != Some(&part.head) {
                return Err((1, part.line));
            }
        }
        if self.t.files.len() < self.script.files.len() {
            return Err((1, self.t.guests.first().map_or(self.t.end, |g| g.line)));
        }
        Ok(())
    }

    fn rule_2(&self) -> Result<(), Fault> {
        let next = |guest: usize| self.t.guests.get(guest + 1).map_or(self.t.end, |g| g.line);
        for (n, part) in self.t.guests.iter().enumerate() {
            let Some(calls) = self.script.guests.get(n) else {
                return Err((2, part.line));
            };
            if part.number != n as u64 {
                return Err((2, part.line));
            }
            for (call, (number, _)) in part.lines.iter().enumerate() {
                if *number != call || call >= calls.len() {
                    return Err((2, part.line + 1 + call as u64));
                }
            }
            if part.lines.len() < calls.len() {
                return Err((2, next(n)));
            }
        }
        if self.t.guests.len() < self.script.guests.len() { Err((2, self.t.end)) } else { Ok(()) }
    }

    fn rule_3(&self) -> Result<(), Fault> {
        self.each_call(3, |_, _, call, line| match line {
            Line::Done { answer: Answer::Bytes(_), .. } => matches!(call, Call::Read { .. } | Call::Load { .. }),
            Line::Done { answer: Answer::Wrote(_), .. } => {
                matches!(call, Call::Write { .. } | Call::Fill { .. } | Call::Store { .. })
            }
            Line::Done { answer: Answer::Size(_), .. } => matches!(call, Call::Size { .. } | Call::Truncate { .. }),
            Line::Held { .. } => matches!(call, Call::Hold { .. }),
            Line::Released => matches!(call, Call::Release { .. }),
            Line::Busy { .. } => {
                matches!(call, Call::Read { .. } | Call::Write { .. } | Call::Fill { .. } | Call::Hold { .. })
            }
            Line::Leased { .. } => matches!(call, Call::Truncate { .. }),
            Line::NoHold => matches!(call, Call::Load { .. } | Call::Store { .. } | Call::Release { .. }),
            Line::Past { .. } => matches!(call, Call::Load { .. } | Call::Store { .. }),
        })
    }

    fn rule_4(&self) -> Result<(), Fault> {
        for (file, part) in self.t.files.iter().enumerate() {
            for (at, entry) in part.entries.iter().enumerate() {
                let done = match (self.call(entry.guest, entry.call), self.line(entry.guest, entry.call)) {
                    (Some(call), Some(Line::Done { place, .. })) => {
                        *place == at as u64 && self.target(entry.guest, call).is_some_and(|to| to.0 == file)
                    }
                    _ => false,
                };
                if !done {
                    return Err((4, part.line + 1 + at as u64));
                }
            }
        }
        self.each_call(4, |guest, number, call, line| match line {
            Line::Done { place, .. } => {
                let entry = self.target(guest, call).and_then(|to| self.t.files[to.0].entries.get(*place as usize));
                entry.is_some_and(|e| e.guest == guest && e.call == number)
            }
            _ => true,
        })
    }

    fn look(&mut self) {
        for (guest, calls) in self.script.guests.iter().enumerate() {
            let mut last = vec![0u64; self.script.files.len()];
            let mut released = vec![false; self.holds[guest].len()];
            let mut seen = Vec::with_capacity(calls.len());
            for (call, line) in calls.iter().zip(self.t.guests[guest].lines.iter().map(|l| &l.1)) {
                let to = self.target(guest, call);
                let hold = match call {
                    Call::Load { hold, .. } | Call::Store { hold, .. } | Call::Release { hold } => Some(*hold),
                    _ => None,
                };
                let grant = hold.and_then(|h| if released[h] { None } else { self.grant(guest, h) });
                seen.push(Seen { to, before: to.map_or(0, |to| last[to.0]), grant });
                if let (Some(to), Line::Done { place, .. }) = (to, line) {
                    last[to.0] = place + 1;
                }
                if let (Some(hold), Line::Released) = (hold, line) {
                    released[hold] = true;
                }
            }
            self.seen.push(seen);
        }
    }

    fn rule_5(&self) -> Result<(), Fault> {
        self.each_call(5, |guest, call, _, line| match line {
            Line::Done { place, .. } => self.seen[guest][call].before <= *place,
            _ => true,
        })
    }

    fn replay(&mut self) {
        for part in &self.t.files {
            let mut bytes = vec![part.head.fill; part.head.size as usize];
            let mut sizes = Vec::with_capacity(part.entries.len() + 1);
            let mut right = Vec::with_capacity(part.entries.len());
            for entry in &part.entries {
                sizes.push(bytes.len() as u64);
                let start = self.seen[entry.guest][entry.call].to.map_or(0, |to| to.1);
                let answer = match self.line(entry.guest, entry.call) {
                    Some(Line::Done { answer, .. }) => Some(answer),
                    _ => None,
                };
                right.push(match self.call(entry.guest, entry.call) {
                    Some(call) => carry_out(&mut bytes, start, call, answer),
                    None => false,
                });
            }
            sizes.push(bytes.len() as u64);
            self.sizes.push(sizes);
            self.right.push(right);
        }
    }

    fn rule_6(&self) -> Result<(), Fault> {
        self.each_call(6, |guest, call, _, line| match line {
            Line::Done { place, .. } => self.seen[guest][call].to.is_some_and(|to| self.right[to.0][*place as usize]),
            _ => true,
        })
    }

    fn came_right(&self, file: usize, at: usize, entry: &Entry) -> bool {
        let Some(call) = self.call(entry.guest, entry.call) else {
            return false;
        };
        if self.t.ranges == 0 {
            return matches!(entry.way, Way::Req);
        }
        let (lives, log, seen) = (&self.lives[file], &self.t.files[file].log, &self.seen[entry.guest][entry.call]);
        let (off, len) = op_len(call);
        match call {
            Call::Read { .. } => lives.covers(log, false, off, len, &entry.way),
            Call::Write { .. } | Call::Fill { .. } => match entry.way {
                Way::Req => false,
                Way::Saw(z) => {
                    z < off + len
                        && seen.before <= at as u64
                        && self.sizes[file][seen.before as usize..=at].contains(&z)
                }
                Way::Via(..) => off + len <= self.sizes[file][at] && lives.covers(log, true, off, len, &entry.way),
            },
            Call::Size { .. } | Call::Truncate { .. } => matches!(entry.way, Way::Req),
            Call::Load { hold, .. } | Call::Store { hold, .. } => {
                let Some((file_start, grant)) = seen.to.zip(self.grant(entry.guest, *hold)) else {
                    return false;
                };
                matches!(entry.way, Way::Via(k, None) if k == (grant.1, grant.2))
                    && lives.covers(log, matches!(call, Call::Store { .. }), file_start.1 + off, len, &entry.way)
            }
            Call::Hold { .. } | Call::Release { .. } => false,
        }
    }

    fn rule_7(&self) -> Result<(), Fault> {
        for (file, part) in self.t.files.iter().enumerate() {
            for (at, entry) in part.entries.iter().enumerate() {
                if !self.came_right(file, at, entry) {
                    return Err((7, part.line + 1 + at as u64));
                }
            }
        }
        Ok(())
    }

    fn is_granted(&self, guest: usize, number: usize, call: &Call, end: u64, through: (u64, u64)) -> bool {
        let Call::Hold { file, chunk, writes } = call else {
            return false;
        };
        if !self.lives[*file].is_live(&self.t.files[*file].log, *writes, *chunk, through) {
            return false;
        }
        let sizes = &self.sizes[*file];
        let later = (number + 1..self.script.guests[guest].len()).find_map(|n| match self.line(guest, n) {
            Some(Line::Done { place, .. }) if self.seen[guest][n].to.is_some_and(|to| to.0 == *file) => Some(*place),
            _ => None,
        });
        let high = later.map_or(sizes.len() - 1, |p| sizes.len().saturating_sub(1).min(p as usize));
        let low = self.seen[guest][number].before as usize;
        let chunk_end = (chunk + 1) * CHUNK;
        low <= high && sizes[low..=high].iter().any(|z| chunk_end.min(*z) == end)
    }

    fn rule_8(&self) -> Result<(), Fault> {
        self.each_call(8, |guest, number, call, line| {
            let seen = &self.seen[guest][number];
            let (off, len) = op_len(call);
            let end = seen.to.map_or(0, |to| to.1) + off + len;
            match line {
                Line::Done { .. } => match call {
                    Call::Load { .. } | Call::Store { .. } => seen.grant.is_some_and(|g| end <= g.0),
                    _ => true,
                },
                Line::Held { end, entry, upto } => self.is_granted(guest, number, call, *end, (*entry, *upto)),
                Line::Released => seen.grant.is_some(),
                Line::Busy { letters } => self.t.ranges > 0 && letters.len() as u64 == self.t.ranges,
                Line::Leased { count } => *count > 0,
                Line::NoHold => seen.grant.is_none(),
                Line::Past { end: z } => seen.grant.is_some_and(|g| g.0 == *z && *z < end),
            }
        })
    }

    fn rule_9(&self) -> Result<(), Fault> {
        for part in &self.t.files {
            let mut placed: Vec<(u64, u32, bool)> = Vec::new();
            let start = part.line + 1 + part.entries.len() as u64;
            for (at, entry) in part.log.iter().enumerate() {
                let sound = match entry {
                    Log::Place { chunk, range, writes } => {
                        let new = placed.iter().all(|p| p.0 != *chunk && p.1 != *range);
                        placed.push((*chunk, *range, *writes));
                        new && *chunk < 32 && u64::from(*range) < self.t.ranges
                    }
                    Log::Upgrade { range } => match placed.iter_mut().find(|p| p.1 == *range) {
                        Some(p) => !std::mem::replace(&mut p.2, true),
                        None => false,
                    },
                    Log::Remove { range } => match placed.iter().position(|p| p.1 == *range) {
                        Some(n) => {
                            placed.swap_remove(n);
                            true
                        }
                        None => false,
                    },
                };
                if !sound {
                    return Err((9, start + at as u64));
                }
            }
        }
        Ok(())
    }

    fn all(&mut self) -> Result<(), Fault> {
        self.rule_1()?;
        self.rule_2()?;
        self.rule_3()?;
        self.rule_4()?;
        self.look();
        self.rule_5()?;
        self.replay();
        self.rule_6()?;
        self.lives = self.t.files.iter().map(|part| Lives::new(&part.log)).collect();
        self.rule_7()?;
        self.rule_8()?;
        self.rule_9()
    }
}

fn carry_out(bytes: &mut Vec<u8>, start: u64, call: &Call, told: Option<&Answer>) -> bool {
    let (off, len) = op_len(call);
    let (at, end) = ((start + off) as usize, (start + off + len) as usize);
    match call {
        Call::Read { .. } | Call::Load { .. } => {
            let part = &bytes[at.min(bytes.len())..end.min(bytes.len())];
            matches!(told, Some(Answer::Bytes(given)) if given == part)
        }
        Call::Write { bytes: data, .. } | Call::Store { bytes: data, .. } => {
            if bytes.len() < end {
                bytes.resize(end, 0);
            }
            bytes[at..end].copy_from_slice(data);
            matches!(told, Some(Answer::Wrote(n)) if *n == len)
        }
        Call::Fill { byte, .. } => {
            if bytes.len() < end {
                bytes.resize(end, 0);
            }
            bytes[at..end].fill(*byte);
            matches!(told, Some(Answer::Wrote(n)) if *n == len)
        }
        Call::Truncate { size, .. } => {
            bytes.resize(*size as usize, 0);
            matches!(told, Some(Answer::Size(n)) if n == size)
        }
        Call::Size { .. } | Call::Hold { .. } | Call::Release { .. } => {
            matches!(told, Some(Answer::Size(n)) if *n == bytes.len() as u64)
        }
    }
}

fn main() {
    let mut text = Vec::new();
    io::stdin().read_to_end(&mut text).expect("standard input failed");
    let Some(at) = text.windows(5).position(|w| w == b"\n---\n") else {
        println!("no line ---");
        return;
    };
    let (Some(script), Some(t)) = (read_script(&text[..at + 1]), read_transcript(&text[at + 5..])) else {
        println!("bad text");
        return;
    };
    let is_hold = |call: &Call| matches!(call, Call::Hold { .. });
    let places = |calls: &Vec<Call>| (0..calls.len()).filter(|n| is_hold(&calls[*n])).collect();
    let mut audit = Audit {
        script: &script,
        t: &t,
        holds: script.guests.iter().map(places).collect(),
        seen: Vec::new(),
        sizes: Vec::new(),
        right: Vec::new(),
        lives: Vec::new(),
    };
    if std::env::args().len() > 1 {
        println!("{} files, {} guests", t.files.len(), script.guests.len());
        return;
    }
    match audit.all() {
        Ok(()) => println!("legal"),
        Err((rule, line)) => println!("rule {rule} line {line}"),
    }
}
