// Three loops of programs in this folder, written by hand in plain Rust with checked arithmetic, over the bits of a file.
// Usage: loops draws|choices|sums BITS
struct Bits<'a> {
    bytes: &'a [u8],
    used: usize,
}

impl Bits<'_> {
    #[inline]
    fn next(&mut self) -> Option<bool> {
        let byte = self.bytes.get(self.used >> 3)?;
        let bit = byte >> (7 - (self.used & 7)) & 1 == 1;
        self.used += 1;
        Some(bit)
    }
}

// A number below the bound: an attempt ends at the bit that decides it.
fn uniform(bits: &mut Bits, bound: u64) -> Option<u64> {
    let width = 64 - (bound - 1).leading_zeros();
    loop {
        let (mut low, mut left) = (0u64, width);
        while low << left < bound {
            if left == 0 {
                return Some(low);
            }
            left -= 1;
            low = 2 * low + u64::from(bits.next()?);
        }
    }
}

// A choice of weight 1/3: 00 is the first block, 01 and 10 are the second, and 11 is rejected.
fn third(bits: &mut Bits) -> Option<bool> {
    loop {
        let high = bits.next()?;
        let low = bits.next()?;
        if !(high && low) {
            return Some(!high && !low);
        }
    }
}

fn draws(bits: &mut Bits) -> Option<i64> {
    let (mut c, mut s) = (0i64, 0i64);
    while c < 1_000_000 {
        c = c.checked_add(1)?;
        s = s.checked_add(uniform(bits, 6)? as i64)?;
    }
    Some(s)
}

fn choices(bits: &mut Bits) -> Option<i64> {
    let (mut c, mut s) = (0i64, 0i64);
    while c < 1_000_000 {
        c = c.checked_add(1)?;
        s = s.checked_add(if third(bits)? { 1 } else { 2 })?;
    }
    Some(s)
}

fn sums() -> Option<i64> {
    let (mut c, mut s) = (0i64, 0i64);
    while c < 3_000_000 {
        c = c.checked_add(1)?;
        if c.checked_rem(3)? == 0 && c.checked_rem(5)? != 0 {
            s = s.checked_add(c.checked_mul(2)?)?;
        } else {
            s = s.checked_sub(1)?;
        }
    }
    Some(s)
}

fn main() {
    let words: Vec<String> = std::env::args().collect();
    let bytes = std::fs::read(&words[2]).expect("the file of bits");
    let mut bits = Bits { bytes: &bytes, used: 0 };
    let sum = match words[1].as_str() {
        "draws" => draws(&mut bits),
        "choices" => choices(&mut bits),
        _ => sums(),
    };
    println!("value {} bits {}", sum.expect("bits enough, and no overflow"), bits.used);
}
