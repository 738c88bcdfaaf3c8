//! Writes of 4 KiB to files that threads share, as plain, unproved Rust would make them, to measure the turns of
//! `file_share` beside it.
//!
//!     rustc -O -o /tmp/turns examples/beside/turns.rs && time /tmp/turns 1 20000 && time /tmp/turns 4 20000
//!
//! Each of so many threads makes so many writes to a file of its own: it locks the file, copies the bytes, notes the
//! guest, the call and the bytes in the file's history, and unlocks it.
use std::env;
use std::sync::Mutex;
use std::thread;

struct Entry {
    guest: u32,
    call: u32,
    bytes: Vec<u8>,
}

struct File {
    bytes: Vec<u8>,
    history: Vec<Entry>,
}

fn work(files: &[Mutex<File>], guest: usize, count: u32) {
    for call in 0..count {
        let bytes = vec![(call % 251) as u8; 4096];
        let mut file = files[guest].lock().unwrap();
        file.bytes[..4096].copy_from_slice(&bytes);
        file.history.push(Entry {
            guest: guest as u32,
            call,
            bytes,
        });
    }
}

fn main() {
    let words: Vec<u32> = env::args()
        .skip(1)
        .map(|word| word.parse().unwrap())
        .collect();
    let count = words[1];
    let files: Vec<Mutex<File>> = (0..4)
        .map(|_| {
            Mutex::new(File {
                bytes: vec![0; 4096],
                history: Vec::new(),
            })
        })
        .collect();
    thread::scope(|scope| {
        for guest in 0..words[0] as usize {
            let files = &files;
            scope.spawn(move || work(files, guest, count));
        }
    });
    let last = files[0].lock().unwrap();
    let entry = last.history.last().unwrap();
    println!("{} {} {} {}", last.history.len(), entry.guest, entry.call, entry.bytes[0]);
}
