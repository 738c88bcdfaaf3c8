//! Pins of placed chunks by threads that share a window, as plain, unproved Rust would make them, to measure the pins of
//! `range_share` beside it.
//!
//!     rustc -O -o /tmp/pins examples/beside/pins.rs && time /tmp/pins 1 1000000 && time /tmp/pins 4 1000000
//!
//! Of each of 4 files 16 chunks are placed, each in a range of its own. Each of so many threads makes so many turns on
//! a file of its own: it locks the file's tree for reading, looks a chunk up, adds a pin to the count of its range,
//! unlocks the tree, and takes the pin away again.
use std::collections::BTreeMap;
use std::env;
use std::sync::RwLock;
use std::sync::atomic::AtomicU64;
use std::sync::atomic::Ordering::SeqCst;
use std::thread;

struct Placed {
    range: usize,
    writable: bool,
    entry: u64,
}

struct Window {
    // Per file which of its chunks are placed where.
    trees: Vec<RwLock<BTreeMap<u32, Placed>>>,
    // Per range how many pins it has.
    pins: Vec<AtomicU64>,
}

fn work(window: &Window, guest: usize, count: u32) {
    for call in 0..count {
        let tree = window.trees[guest].read().unwrap();
        let range = tree[&(call % 16)].range;
        window.pins[range].fetch_add(1, SeqCst);
        drop(tree);
        window.pins[range].fetch_sub(1, SeqCst);
    }
}

fn main() {
    let words: Vec<u32> = env::args()
        .skip(1)
        .map(|word| word.parse().unwrap())
        .collect();
    let count = words[1];
    let tree_of = |file: usize| {
        let placed = |chunk: usize| Placed {
            range: 16 * file + chunk,
            writable: true,
            entry: chunk as u64,
        };
        RwLock::new((0..16).map(|chunk| (chunk as u32, placed(chunk))).collect())
    };
    let window = Window {
        trees: (0..4).map(tree_of).collect(),
        pins: (0..64).map(|_| AtomicU64::new(0)).collect(),
    };
    thread::scope(|scope| {
        for guest in 0..words[0] as usize {
            let window = &window;
            scope.spawn(move || work(window, guest, count));
        }
    });
    let pins: u64 = window.pins.iter().map(|pins| pins.load(SeqCst)).sum();
    let tree = window.trees[0].read().unwrap();
    let last = &tree[&15];
    println!("{} {} {} {}", pins, last.range, last.writable, last.entry);
}
