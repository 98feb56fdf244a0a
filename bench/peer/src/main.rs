// The programs of the folder above that are tallied, written by hand in plain Rust over the crate `rand_chacha`.
// Usage: peer PROGRAM SEED FROM TO WORKERS
use std::collections::BTreeMap;
use std::sync::atomic::{AtomicU64, Ordering};

use rand_chacha::ChaCha20Rng;
use rand_core::{RngCore, SeedableRng};

// The most attempts of a draw, turns of a loop and rounds of a run, and the most bits of a stream.
const LIMIT: u64 = 1000;
const BUDGET: u64 = 65536;
const STREAMS_OF_A_BLOCK: u64 = 64;

#[derive(Clone, Copy, PartialEq, Eq, PartialOrd, Ord)]
enum Key {
    Value(i64),
    Limit,
    MoreBits,
}

struct Bits {
    rng: ChaCha20Rng,
    word: u32,
    bit: u32,
    used: u64,
}

impl Bits {
    fn new(seed: u64, stream: u64) -> Bits {
        let mut key = [0u8; 32];
        key[..8].copy_from_slice(&seed.to_le_bytes());
        let mut rng = ChaCha20Rng::from_seed(key);
        rng.set_stream(stream);
        Bits { rng, word: 0, bit: 32, used: 0 }
    }

    fn next(&mut self) -> Result<u32, Key> {
        if self.used == BUDGET {
            return Err(Key::MoreBits);
        }
        if self.bit == 32 {
            self.word = self.rng.next_u32();
            self.bit = 0;
        }
        let bit = self.word >> (31 - self.bit) & 1;
        self.bit += 1;
        self.used += 1;
        Ok(bit)
    }

    // A number below the bound: an attempt ends at the bit that decides it.
    fn uniform(&mut self, bound: u64) -> Result<u64, Key> {
        let width = 64 - (bound - 1).leading_zeros();
        for _ in 0..LIMIT {
            let (mut low, mut left) = (0u64, width);
            while left > 0 && low << left < bound {
                low = low << 1 | u64::from(self.next()?);
                left -= 1;
            }
            if left == 0 && low < bound {
                return Ok(low);
            }
        }
        Err(Key::Limit)
    }
}

fn die(bits: &mut Bits) -> Result<i64, Key> {
    Ok(bits.uniform(6)? as i64)
}

fn walk(bits: &mut Bits) -> Result<i64, Key> {
    let mut x = 0;
    for _ in 0..LIMIT {
        if bits.next()? == 1 {
            return Ok(x);
        }
        x += 1;
    }
    Err(Key::Limit)
}

fn toss(bits: &mut Bits) -> Result<(), Key> {
    for _ in 0..LIMIT {
        if bits.uniform(2)? != 0 {
            return Ok(());
        }
    }
    Err(Key::Limit)
}

fn pair(bits: &mut Bits) -> Result<i64, Key> {
    for _ in 0..LIMIT {
        let x = bits.uniform(6)? as i64;
        let y = bits.uniform(6)? as i64;
        if x + y == 8 {
            toss(bits)?;
            return Ok(x);
        }
    }
    Err(Key::Limit)
}

fn arms(bits: &mut Bits) -> Result<i64, Key> {
    let mut x = 0;
    for _ in 0..LIMIT {
        match bits.uniform(5)? {
            0 => return Ok(x),
            1 | 2 => x += 1,
            _ => x += 2,
        }
    }
    Err(Key::Limit)
}

fn coins(bits: &mut Bits) -> Result<i64, Key> {
    for _ in 0..LIMIT {
        if bits.uniform(2)? == 0 {
            return Ok(bits.uniform(4)? as i64);
        }
    }
    Err(Key::Limit)
}

fn thousand(bits: &mut Bits) -> Result<i64, Key> {
    Ok(bits.uniform(1000)? as i64)
}

fn program(name: &str) -> fn(&mut Bits) -> Result<i64, Key> {
    match name {
        "die" => die,
        "walk" => walk,
        "pair" => pair,
        "arms" => arms,
        "coins" => coins,
        _ => thousand,
    }
}

type Table = BTreeMap<Key, u64>;

// Claims blocks of streams until there is none left, and counts how the runs on them end.
fn work(run: fn(&mut Bits) -> Result<i64, Key>, seed: u64, from: u64, to: u64, next: &AtomicU64) -> Table {
    let mut table = Table::new();
    loop {
        let first = from + STREAMS_OF_A_BLOCK * next.fetch_add(1, Ordering::SeqCst);
        if first >= to {
            return table;
        }
        for stream in first..to.min(first + STREAMS_OF_A_BLOCK) {
            let key = run(&mut Bits::new(seed, stream)).map_or_else(|key| key, Key::Value);
            *table.entry(key).or_insert(0) += 1;
        }
    }
}

fn main() {
    let words: Vec<String> = std::env::args().collect();
    let run = program(&words[1]);
    let [seed, from, to, workers] = [2, 3, 4, 5].map(|i| words[i].parse::<u64>().expect("a number"));
    let next = AtomicU64::new(0);
    let tables: Vec<Table> = std::thread::scope(|scope| {
        let hands: Vec<_> = (0..workers).map(|_| scope.spawn(|| work(run, seed, from, to, &next))).collect();
        hands.into_iter().map(|hand| hand.join().expect("a table")).collect()
    });
    let mut sum = Table::new();
    for (key, count) in tables.into_iter().flatten() {
        *sum.entry(key).or_insert(0) += count;
    }
    for (key, count) in sum {
        match key {
            Key::Value(value) => println!("value {value} count {count}"),
            Key::Limit => println!("limit count {count}"),
            Key::MoreBits => println!("more bits count {count}"),
        }
    }
}
