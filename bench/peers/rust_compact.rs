// A straightforward program of std alone: reads lines, rounds each number half to even to the exponent of its magnitude
// or to two digits, and writes it in compact short English.
use std::io::{self, BufRead, BufReader, BufWriter, Write};

const NAMES: [(i32, &str); 4] = [(3, "K"), (6, "M"), (9, "B"), (12, "T")];

/// Digits from the greatest power down, and the power of the first.
struct Number {
    digits: Vec<u8>,
    high: i32,
}

fn parse(text: &str) -> Option<Number> {
    let (integer, fraction) = match text.split_once('.') {
        Some((integer, fraction)) if !fraction.is_empty() => (integer, fraction),
        Some(_) => return None,
        None if text.is_empty() => return None,
        None => (text, ""),
    };
    let mut digits = Vec::with_capacity(text.len());
    for byte in integer.bytes().chain(fraction.bytes()) {
        if !byte.is_ascii_digit() {
            return None;
        }
        digits.push(byte - b'0');
    }
    let high = integer.len() as i32 - 1;
    let zeros = digits.iter().take_while(|digit| **digit == 0).count();
    if zeros == digits.len() {
        return Some(Number { digits: vec![0], high: 0 });
    }
    digits.drain(..zeros);
    Some(Number { digits, high: high - zeros as i32 })
}

fn exponent_of(magnitude: i32) -> (i32, &'static str) {
    let mut found = (0, "");
    for (exponent, name) in NAMES {
        if exponent <= magnitude {
            found = (exponent, name);
        }
    }
    found
}

fn rounded(mut number: Number, place: i32) -> Number {
    let kept = number.high - place + 1;
    if kept < 0 || kept as usize >= number.digits.len() {
        return number;
    }
    let kept = kept as usize;
    let next = number.digits[kept];
    let above_half = next > 5 || (next == 5 && number.digits[kept + 1..].iter().any(|d| *d != 0));
    let is_odd = kept > 0 && number.digits[kept - 1] % 2 == 1;
    let up = above_half || (next == 5 && is_odd);
    number.digits.truncate(kept);
    if up {
        while number.digits.last() == Some(&9) {
            number.digits.pop();
        }
        match number.digits.last_mut() {
            Some(digit) => *digit += 1,
            None => {
                number.digits.push(1);
                number.high += 1;
            }
        }
    }
    number
}

fn write_compact(number: Number, out: &mut impl Write) -> io::Result<()> {
    let magnitude = number.high;
    let (exponent, _) = exponent_of(magnitude);
    let place = if magnitude > exponent { exponent } else { magnitude - 1 };
    let number = rounded(number, place);
    let (exponent, name) = exponent_of(number.high);
    let high = number.high - exponent;
    let digit = |power: i32| {
        let index = high - power;
        if index < 0 { 0 } else { number.digits.get(index as usize).copied().unwrap_or(0) }
    };
    let count = high.max(0) + 1;
    for power in (0..count).rev() {
        out.write_all(&[b'0' + digit(power)])?;
        if count > 4 && power > 0 && power % 3 == 0 {
            out.write_all(b",")?;
        }
    }
    let last = (high + 1 - number.digits.len() as i32).min(0);
    let last = (last..0).find(|power| digit(*power) != 0).unwrap_or(0);
    if last < 0 {
        out.write_all(b".")?;
        for power in (last..0).rev() {
            out.write_all(&[b'0' + digit(power)])?;
        }
    }
    out.write_all(name.as_bytes())
}

fn main() -> io::Result<()> {
    let mut input = BufReader::new(io::stdin().lock());
    let mut out = BufWriter::new(io::stdout().lock());
    let mut line = Vec::new();
    while input.read_until(b'\n', &mut line)? > 0 {
        let text = line.strip_suffix(b"\n").unwrap_or(&line);
        match std::str::from_utf8(text) {
            Ok(text) => {
                let number = text.strip_prefix(['-', '+']).unwrap_or(text);
                match parse(number) {
                    Some(parsed) => {
                        out.write_all(text[..text.len() - number.len()].as_bytes())?;
                        write_compact(parsed, &mut out)?;
                    }
                    None => out.write_all(b"error: not a decimal")?,
                }
            }
            Err(_) => out.write_all(b"error: not a decimal")?,
        }
        out.write_all(b"\n")?;
        line.clear();
    }
    out.flush()
}
