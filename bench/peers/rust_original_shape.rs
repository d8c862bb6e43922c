// In the shape of the original crate: a decimal, a value that writes itself, a String for each line.
use std::fmt::{self, Write as _};
use std::io::{self, BufRead, BufWriter, Write};

struct Decimal {
    negative: bool,
    positive: bool,
    digits: Vec<u8>,
    scale: usize,
}

enum Refusal {
    Syntax,
    Limit,
}

impl Decimal {
    fn try_from_str(text: &str) -> Result<Decimal, Refusal> {
        let (negative, positive) = (text.starts_with('-'), text.starts_with('+'));
        let number = if negative || positive { &text[1..] } else { text };
        let (integer, fraction) = number.split_once('.').unwrap_or((number, ""));
        let pointed = integer.len() < number.len();
        if (pointed && fraction.is_empty()) || (integer.is_empty() && fraction.is_empty()) {
            return Err(Refusal::Syntax);
        }
        if !integer.bytes().chain(fraction.bytes()).all(|b| b.is_ascii_digit()) {
            return Err(Refusal::Syntax);
        }
        if integer.len() > 32768 || fraction.len() > 32768 {
            return Err(Refusal::Limit);
        }
        let mut digits: Vec<u8> = Vec::with_capacity(number.len() + 1);
        if integer.is_empty() {
            digits.push(0);
        }
        digits.extend(integer.bytes().chain(fraction.bytes()).map(|b| b - b'0'));
        Ok(Decimal { negative, positive, digits, scale: fraction.len() })
    }

    fn digit_at(&self, magnitude: i32) -> u8 {
        let index = self.digits.len() as i32 - self.scale as i32 - 1 - magnitude;
        self.digits[index as usize]
    }
}

fn check(upper: i32, magnitude: i32, primary: i32, secondary: i32, least: i32) -> bool {
    magnitude >= primary
        && upper >= primary + least - 1
        && (magnitude - primary) % secondary == 0
}

trait Sink {
    fn write_str(&mut self, text: &str) -> fmt::Result;
    fn write_char(&mut self, c: char) -> fmt::Result;
    fn with_part(&mut self, f: impl FnOnce(&mut Self) -> fmt::Result) -> fmt::Result;
}

struct Plain<'a>(&'a mut String);

impl Sink for Plain<'_> {
    fn write_str(&mut self, text: &str) -> fmt::Result {
        self.0.write_str(text)
    }
    fn write_char(&mut self, c: char) -> fmt::Result {
        self.0.write_char(c)
    }
    fn with_part(&mut self, f: impl FnOnce(&mut Self) -> fmt::Result) -> fmt::Result {
        f(self)
    }
}

struct Formatted<'a>(&'a Decimal, &'a [char; 10]);

impl Formatted<'_> {
    fn write_to<S: Sink>(&self, sink: &mut S) -> fmt::Result {
        let Formatted(decimal, digits) = self;
        let sign = if decimal.negative { "-" } else if decimal.positive { "+" } else { "" };
        sink.with_part(|w| w.write_str(sign))?;
        let upper = decimal.digits.len() as i32 - decimal.scale as i32 - 1;
        let lower = -(decimal.scale as i32);
        sink.with_part(|w| {
            for magnitude in (0..=upper).rev() {
                w.write_char(digits[decimal.digit_at(magnitude) as usize])?;
                if check(upper, magnitude, 3, 3, 1) {
                    w.with_part(|w| w.write_str(","))?;
                }
            }
            Ok(())
        })?;
        if lower < 0 {
            sink.with_part(|w| w.write_str("."))?;
            sink.with_part(|w| {
                for magnitude in (lower..0).rev() {
                    w.write_char(digits[decimal.digit_at(magnitude) as usize])?;
                }
                Ok(())
            })?;
        }
        Ok(())
    }
}

fn main() -> io::Result<()> {
    let digits = ['0', '1', '2', '3', '4', '5', '6', '7', '8', '9'];
    let mut out = BufWriter::new(io::stdout().lock());
    for line in io::stdin().lock().split(b'\n') {
        let mut line = line?;
        if line.last() == Some(&b'\r') {
            line.pop();
        }
        let decimal = match String::from_utf8(line) {
            Ok(text) => Decimal::try_from_str(&text),
            Err(_) => Err(Refusal::Syntax),
        };
        match decimal {
            Ok(decimal) => {
                let mut text = String::new();
                Formatted(&decimal, &digits).write_to(&mut Plain(&mut text)).unwrap();
                writeln!(out, "{text}")?;
            }
            Err(Refusal::Syntax) => writeln!(out, "error: not a decimal")?,
            Err(Refusal::Limit) => writeln!(out, "error: too many digits")?,
        }
    }
    out.flush()
}
