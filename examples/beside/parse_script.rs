//! Reads a script from standard input as plain, unproved Rust would, to measure `daxrun`'s reader beside it.
//!
//!     rustc -O -o /tmp/parse_script examples/beside/parse_script.rs && /tmp/parse_script < SCRIPT
//!
//! Prints `refused line L WHY`, or how many files, guests, calls and bytes the script has. The form is that of
//! docs/formats.md, whole.
use std::io::{self, Read, Write};

const MAX_FILE: u64 = 67_108_864;
const MAX_CALL: u64 = 1_048_576;
const CHUNK: u64 = 2_097_152;

#[allow(dead_code)]
enum Call {
    Read { file: u32, off: u64, len: u32 },
    Write { file: u32, off: u64, bytes: Vec<u8> },
    Fill { file: u32, off: u64, len: u32, byte: u8 },
    Size { file: u32 },
    Truncate { file: u32, size: u64 },
    Hold { file: u32, chunk: u32, writes: bool },
    Load { hold: u32, off: u64, len: u32 },
    Store { hold: u32, off: u64, bytes: Vec<u8> },
    Release { hold: u32 },
}

#[allow(dead_code)]
struct File {
    name: Vec<u8>,
    size: u64,
    fill: u8,
}

#[derive(Default)]
struct Script {
    ranges: Option<u64>,
    background: Option<u64>,
    files: Vec<File>,
    guests: Vec<Vec<Call>>,
    holds: Vec<bool>,
    calls: usize,
    moved: u64,
}

type Why = &'static str;

fn number(word: &[u8]) -> Result<u128, Why> {
    if word.is_empty() || word.len() > 20 || (word[0] == b'0' && word.len() > 1) {
        return Err("number");
    }
    word.iter().try_fold(0u128, |n, c| match c {
        b'0'..=b'9' => Ok(n * 10 + (c - b'0') as u128),
        _ => Err("number"),
    })
}

fn between(low: u64, high: u64, word: &[u8]) -> Result<u64, Why> {
    let n = number(word)?;
    if (low as u128..=high as u128).contains(&n) { Ok(n as u64) } else { Err("limit") }
}

fn digit(c: u8) -> Result<u8, Why> {
    match c {
        b'0'..=b'9' => Ok(c - b'0'),
        b'a'..=b'f' => Ok(c - b'a' + 10),
        _ => Err("hex"),
    }
}

fn hex(word: &[u8]) -> Result<Vec<u8>, Why> {
    if word.is_empty() || word.len() % 2 != 0 {
        return Err("hex");
    }
    let mut bytes = Vec::with_capacity(word.len() / 2);
    for pair in word.chunks_exact(2) {
        bytes.push(digit(pair[0])? * 16 + digit(pair[1])?);
    }
    if bytes.len() as u64 > MAX_CALL { Err("limit") } else { Ok(bytes) }
}

fn byte(word: &[u8]) -> Result<u8, Why> {
    match hex(word).as_deref() {
        Ok([b]) => Ok(*b),
        _ => Err("byte"),
    }
}

fn within(off: u128, len: u64, end: u64) -> Result<u64, Why> {
    if off + len as u128 > end as u128 { Err("limit") } else { Ok(off as u64) }
}

fn is_name(word: &[u8]) -> bool {
    (1..=32).contains(&word.len()) && word.iter().all(|c| matches!(c, b'a'..=b'z' | b'0'..=b'9' | b'_' | b'-'))
}

impl Script {
    fn file(&self, word: &[u8]) -> Result<u32, Why> {
        self.files.iter().position(|f| f.name == word).map(|n| n as u32).ok_or("file")
    }

    fn hold(&self, word: &[u8]) -> Result<u32, Why> {
        let n = number(word)?;
        if n < self.holds.len() as u128 { Ok(n as u32) } else { Err("hold") }
    }

    fn call(&self, verb: &[u8], words: &[&[u8]]) -> Result<(Call, u64), Why> {
        match (verb, words) {
            (b"read", [f, off, len]) => {
                let (file, off) = (self.file(f)?, number(off)?);
                let len = between(1, MAX_CALL, len)?;
                Ok((Call::Read { file, off: within(off, len, MAX_FILE)?, len: len as u32 }, len))
            }
            (b"write", [f, off, bytes]) => {
                let (file, off, bytes) = (self.file(f)?, number(off)?, hex(bytes)?);
                let len = bytes.len() as u64;
                Ok((Call::Write { file, off: within(off, len, MAX_FILE)?, bytes }, len))
            }
            (b"fill", [f, off, len, fill]) => {
                let (file, off) = (self.file(f)?, number(off)?);
                let (len, byte) = (between(1, MAX_CALL, len)?, byte(fill)?);
                Ok((Call::Fill { file, off: within(off, len, MAX_FILE)?, len: len as u32, byte }, len))
            }
            (b"size", [f]) => Ok((Call::Size { file: self.file(f)? }, 0)),
            (b"truncate", [f, size]) => Ok((Call::Truncate { file: self.file(f)?, size: between(0, MAX_FILE, size)? }, 0)),
            (b"hold", [f, chunk, mode]) => {
                let (file, chunk) = (self.file(f)?, between(0, 31, chunk)? as u32);
                let writes = match *mode {
                    b"r" => false,
                    b"w" => true,
                    _ => return Err("mode"),
                };
                if self.holds.len() == 32 { Err("limit") } else { Ok((Call::Hold { file, chunk, writes }, 0)) }
            }
            (b"load", [h, off, len]) => {
                let (hold, off) = (self.hold(h)?, number(off)?);
                let len = between(1, MAX_CALL, len)?;
                Ok((Call::Load { hold, off: within(off, len, CHUNK)?, len: len as u32 }, len))
            }
            (b"store", [h, off, bytes]) => {
                let hold = self.hold(h)?;
                if !self.holds[hold as usize] {
                    return Err("hold");
                }
                let (off, bytes) = (number(off)?, hex(bytes)?);
                let len = bytes.len() as u64;
                Ok((Call::Store { hold, off: within(off, len, CHUNK)?, bytes }, len))
            }
            (b"release", [h]) => Ok((Call::Release { hold: self.hold(h)? }, 0)),
            (b"read" | b"write" | b"fill" | b"size" | b"truncate" | b"hold" | b"load" | b"store" | b"release", _) => Err("words"),
            _ => Err("order"),
        }
    }

    fn line(&mut self, verb: &[u8], words: &[&[u8]]) -> Result<(), Why> {
        let Some(ranges) = self.ranges else {
            return match (verb, words) {
                (b"ranges", [n]) => match number(n)? {
                    r @ (0 | 2..=256) => Ok(self.ranges = Some(r as u64)),
                    _ => Err("limit"),
                },
                (b"ranges", _) => Err("words"),
                _ => Err("order"),
            };
        };
        match verb {
            b"background" if self.background.is_none() && self.files.is_empty() && self.guests.is_empty() => {
                let [n] = words else { return Err("words") };
                let n = between(0, 65_536, n)?;
                if ranges == 0 && n > 0 { Err("window") } else { Ok(self.background = Some(n)) }
            }
            b"file" if self.guests.is_empty() => {
                let (name, size, fill) = match words {
                    [name, size] => (name, size, None),
                    [name, size, fill] => (name, size, Some(fill)),
                    _ => return Err("words"),
                };
                if !is_name(name) || self.files.iter().any(|f| f.name == *name) {
                    return Err("name");
                }
                let size = between(0, MAX_FILE, size)?;
                let fill = fill.map_or(Ok(0), |b| byte(b))?;
                if self.files.len() == 16 {
                    return Err("limit");
                }
                Ok(self.files.push(File { name: name.to_vec(), size, fill }))
            }
            b"guest" => {
                if !words.is_empty() {
                    return Err("words");
                }
                if self.guests.len() == 16 {
                    return Err("limit");
                }
                self.holds.clear();
                Ok(self.guests.push(Vec::new()))
            }
            b"background" | b"file" | b"ranges" => Err("order"),
            _ if self.guests.is_empty() => Err("order"),
            _ => {
                let (call, len) = self.call(verb, words)?;
                if self.calls == 65_536 || self.moved + len > MAX_FILE {
                    return Err("limit");
                }
                if let Call::Hold { writes, .. } = call {
                    if ranges == 0 {
                        return Err("window");
                    }
                    self.holds.push(writes);
                }
                self.calls += 1;
                self.moved += len;
                Ok(self.guests.last_mut().unwrap().push(call))
            }
        }
    }
}

fn parse(text: &[u8]) -> Result<Script, (usize, Why)> {
    let mut script = Script::default();
    let mut lines = 0;
    for line in text.strip_suffix(b"\n").unwrap_or(text).split(|c| *c == b'\n') {
        if text.is_empty() {
            break;
        }
        lines += 1;
        if line.first() == Some(&b'#') {
            continue;
        }
        let mut words = line.split(|c| *c == b' ').filter(|w| !w.is_empty());
        let Some(verb) = words.next() else { continue };
        // A line that may stand has at most four words behind its first; a fifth only has to be counted.
        let mut rest: [&[u8]; 5] = [b""; 5];
        let mut count = 0;
        for (place, word) in rest.iter_mut().zip(words) {
            *place = word;
            count += 1;
        }
        script.line(verb, &rest[..count]).map_err(|why| (lines, why))?;
    }
    if script.ranges.is_none() { Err((lines + 1, "order")) } else { Ok(script) }
}

fn main() -> io::Result<()> {
    let mut text = Vec::new();
    io::stdin().lock().read_to_end(&mut text)?;
    let said = match parse(&text) {
        Ok(s) => format!("{} files, {} guests, {} calls, {} bytes\n", s.files.len(), s.guests.len(), s.calls, s.moved),
        Err((line, why)) => format!("refused line {line} {why}\n"),
    };
    io::stdout().write_all(said.as_bytes())
}
