// Text to text as fast as it can be made: no decimal is made and no table is read. A line of up to sixteen bytes is judged
// in sixteen lanes and its integer is grouped by shuffles; a longer one goes twelve digits a step. The same output as
// rust_plain. Needs SSSE3, as the others are built for.
use std::arch::x86_64::*;
use std::io::{self, Read, Write};

const LANES: usize = 16;
const BLOCK: usize = 1 << 16;
const MOST_DIGITS: usize = 32768;

// For each count of digits up to sixteen where each byte of the grouped text comes from, and its separators.
struct Tables {
    from: [[u8; 2 * LANES]; LANES + 1],
    commas: [[u8; 2 * LANES]; LANES + 1],
    len: [usize; LANES + 1],
}

fn tables() -> Tables {
    let mut made = Tables { from: [[0x80; 32]; 17], commas: [[0; 32]; 17], len: [0; 17] };
    for count in 0..=LANES {
        let mut at = 0;
        for digit in 0..count {
            if digit > 0 && (count - digit) % 3 == 0 {
                made.commas[count][at] = b',';
                at += 1;
            }
            made.from[count][at] = digit as u8;
            at += 1;
        }
        made.len[count] = at;
    }
    made
}

unsafe fn load(at: *const u8) -> __m128i {
    unsafe { _mm_loadu_si128(at.cast()) }
}

unsafe fn store(at: *mut u8, lanes: __m128i) {
    unsafe { _mm_storeu_si128(at.cast(), lanes) }
}

// A bit for each lane that is a digit.
#[target_feature(enable = "ssse3")]
unsafe fn digits_in(lanes: __m128i) -> u32 {
    let values = _mm_sub_epi8(lanes, _mm_set1_epi8(b'0' as i8));
    _mm_movemask_epi8(_mm_cmpeq_epi8(_mm_min_epu8(values, _mm_set1_epi8(9)), values)) as u32
}

// How many digits stand at the front, up to `end`.
#[target_feature(enable = "ssse3")]
unsafe fn digits_at(mut at: *const u8, end: *const u8) -> usize {
    let begin = at;
    while at < end {
        let others = !unsafe { digits_in(load(at)) } & 0xffff;
        if others != 0 {
            at = unsafe { at.add(others.trailing_zeros() as usize) };
            break;
        }
        at = unsafe { at.add(LANES) };
    }
    (at.min(end) as usize) - begin as usize
}

// Writes `count` digits in groups of three, and answers where they end.
#[target_feature(enable = "ssse3")]
unsafe fn group(tables: &Tables, mut at: *const u8, count: usize, mut out: *mut u8) -> *mut u8 {
    unsafe {
        if count <= LANES {
            let digits = load(at);
            let (from, commas) = (tables.from[count].as_ptr(), tables.commas[count].as_ptr());
            store(out, _mm_or_si128(_mm_shuffle_epi8(digits, load(from)), load(commas)));
            let behind = _mm_shuffle_epi8(digits, load(from.add(LANES)));
            store(out.add(LANES), _mm_or_si128(behind, load(commas.add(LANES))));
            return out.add(tables.len[count]);
        }
        // the first group alone, and twelve digits a step: ,ddd,ddd,ddd,ddd
        let first = (count - 1) % 3 + 1;
        let end = at.add(count);
        store(out, load(at));
        (at, out) = (at.add(first), out.add(first));
        let from = _mm_setr_epi8(-1, 0, 1, 2, -1, 3, 4, 5, -1, 6, 7, 8, -1, 9, 10, 11);
        let commas = _mm_set1_epi32(b',' as i32);
        while end as usize - at as usize >= 12 {
            store(out, _mm_or_si128(_mm_shuffle_epi8(load(at), from), commas));
            (at, out) = (at.add(12), out.add(LANES));
        }
        store(out, _mm_or_si128(_mm_shuffle_epi8(load(at), from), commas));
        out.add((end as usize - at as usize) / 3 * 4)
    }
}

unsafe fn copy(from: *const u8, count: usize, to: *mut u8) -> *mut u8 {
    unsafe {
        store(to, load(from));
        if count > LANES {
            std::ptr::copy_nonoverlapping(from, to, count);
        }
        to.add(count)
    }
}

unsafe fn say(text: &[u8], out: *mut u8) -> *mut u8 {
    unsafe {
        std::ptr::copy_nonoverlapping(text.as_ptr(), out, text.len());
        out.add(text.len())
    }
}

// Writes the answer to the text from `at` to `end`, without its line feed.
#[target_feature(enable = "ssse3")]
unsafe fn answer(tables: &Tables, mut at: *const u8, mut end: *const u8, mut out: *mut u8) -> *mut u8 {
    unsafe {
        if end > at && *end.sub(1) == b'\r' {
            end = end.sub(1);
        }
        let first = *at;
        *out = first;
        let signs = (end > at && (first == b'-' || first == b'+')) as usize;
        at = at.add(signs);
        let left = end as usize - at as usize;
        let integer = digits_at(at, end);
        if integer == left && integer > 0 && integer <= MOST_DIGITS {
            return group(tables, at, integer, out.add(signs));
        }
        let point = at.add(integer);
        let fraction = if integer < left && *point == b'.' { digits_at(point.add(1), end) } else { 0 };
        if (fraction == 0 && integer < left) || (fraction > 0 && integer + 1 + fraction != left) || left == 0 {
            return say(b"error: not a decimal", out);
        }
        if integer > MOST_DIGITS || fraction > MOST_DIGITS {
            return say(b"error: too many digits", out);
        }
        out = out.add(signs);
        out = if integer == 0 { say(b"0", out) } else { group(tables, at, integer, out) };
        copy(point, fraction + 1, out)
    }
}

// Where the line that begins at `at` ends, or `end`.
#[target_feature(enable = "ssse3")]
unsafe fn line_end(mut at: *const u8, end: *const u8) -> *const u8 {
    unsafe {
        while at < end {
            let feeds = _mm_movemask_epi8(_mm_cmpeq_epi8(load(at), _mm_set1_epi8(b'\n' as i8))) as u32;
            if feeds != 0 {
                return at.add(feeds.trailing_zeros() as usize).min(end);
            }
            at = at.add(LANES);
        }
        end
    }
}

// Writes the answers to the whole lines of a block, to all of it at the end of the input; answers how much that was.
#[target_feature(enable = "ssse3")]
unsafe fn answer_block(tables: &Tables, held: &[u8], len: usize, is_last: bool, out: &mut Vec<u8>) -> usize {
    unsafe {
        out.reserve(2 * len + 32 * (len + 1) + 4 * LANES);
        let begin = held.as_ptr();
        let end = begin.add(len);
        let (mut at, mut to) = (begin, out.as_mut_ptr());
        while at < end {
            let feed = line_end(at, end);
            if feed == end && !is_last {
                break;
            }
            to = answer(tables, at, feed, to);
            *to = b'\n';
            to = to.add(1);
            at = feed.add(1).min(end);
        }
        out.set_len(to as usize - out.as_ptr() as usize);
        at as usize - begin as usize
    }
}

fn main() -> io::Result<()> {
    let tables = tables();
    let (mut input, mut output) = (io::stdin().lock(), io::stdout().lock());
    let mut held = vec![0; BLOCK + 4 * LANES];
    let (mut len, mut out) = (0, Vec::new());
    loop {
        let room = held.len() - 4 * LANES;
        if len == room {
            held.resize(2 * held.len(), 0);
            continue;
        }
        let count = input.read(&mut held[len..room])?;
        len += count;
        out.clear();
        let done = unsafe { answer_block(&tables, &held, len, count == 0, &mut out) };
        output.write_all(&out)?;
        if count == 0 {
            return Ok(());
        }
        held.copy_within(done..len, 0);
        len -= done;
    }
}
