// A straightforward program of std alone: reads lines, checks them, and writes the digits in groups of three.
use std::io::{self, BufRead, BufReader, BufWriter, Write};

fn are_digits(text: &str) -> bool {
    text.bytes().all(|b| b.is_ascii_digit())
}

fn write_grouped(digits: &str, out: &mut impl Write) -> io::Result<()> {
    for (i, digit) in digits.bytes().enumerate() {
        if i > 0 && (digits.len() - i) % 3 == 0 {
            out.write_all(b",")?;
        }
        out.write_all(&[digit])?;
    }
    Ok(())
}

fn write_number(text: &str, out: &mut impl Write) -> io::Result<()> {
    let number = text.strip_prefix(['-', '+']).unwrap_or(text);
    let sign = &text[..text.len() - number.len()];
    let (integer, fraction) = match number.split_once('.') {
        Some((integer, fraction)) => (integer, Some(fraction)),
        None => (number, None),
    };
    let is_decimal = are_digits(integer)
        && fraction.map_or(!integer.is_empty(), |f| !f.is_empty() && are_digits(f));
    if !is_decimal {
        return out.write_all(b"error: not a decimal");
    }
    if integer.len() > 32768 || fraction.is_some_and(|f| f.len() > 32768) {
        return out.write_all(b"error: too many digits");
    }
    out.write_all(sign.as_bytes())?;
    write_grouped(if integer.is_empty() { "0" } else { integer }, out)?;
    if let Some(fraction) = fraction {
        write!(out, ".{fraction}")?;
    }
    Ok(())
}

fn main() -> io::Result<()> {
    let mut input = BufReader::new(io::stdin().lock());
    let mut out = BufWriter::new(io::stdout().lock());
    let mut line = Vec::new();
    while input.read_until(b'\n', &mut line)? > 0 {
        let text = line.strip_suffix(b"\n").unwrap_or(&line);
        let text = text.strip_suffix(b"\r").unwrap_or(text);
        match std::str::from_utf8(text) {
            Ok(text) => write_number(text, &mut out)?,
            Err(_) => out.write_all(b"error: not a decimal")?,
        }
        out.write_all(b"\n")?;
        line.clear();
    }
    out.flush()
}
