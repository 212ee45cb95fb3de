//! The comparing program, written from docs/01-scope.md and docs/DECISIONS.md, as a second
//! source beside the port. Figures, keys and order are the Rust's, by the probe. `compare` reads
//! standard input; `compare --many FILE` reads many inputs, each behind a line with its length.

use geo_filters::probe::{self, Given::Ones, Given::Row};
use std::io::{Read, Write};

/// Number and line of a refusal.
type Refused = (u32, u32);

/// What 01's table of the configurations says of the rows.
struct Config {
    number: u32,
    top: usize,
    entry_bytes: usize,
    buckets: u32,
    longest: usize,
}

const CONFIG_7: Config = Config { number: 7, top: 12, entry_bytes: 2, buckets: 8_320, longest: 1_065 };
const CONFIG_10: Config = Config { number: 10, top: 64, entry_bytes: 4, buckets: 66_560, longest: 8_569 };

fn main() {
    let arguments: Vec<String> = std::env::args().skip(1).collect();
    let arguments: Vec<&str> = arguments.iter().map(String::as_str).collect();
    let out = match arguments[..] {
        [] => {
            let mut input = Vec::new();
            // what was read before an error stays in `input`, and the error counts as its end
            let _ = std::io::stdin().read_to_end(&mut input);
            answer(&input)
        }
        ["--many", file] => many(&std::fs::read(file).expect("the file of inputs")),
        _ => panic!("usage: compare [--many FILE]"),
    };
    std::io::stdout().write_all(out.as_bytes()).expect("standard output");
}

fn many(mut rest: &[u8]) -> String {
    let mut out = String::new();
    while !rest.is_empty() {
        let end = rest.iter().position(|&byte| byte == b'\n').expect("a line with a length");
        let length = std::str::from_utf8(&rest[..end]).expect("a length");
        let (input, after) = rest[end + 1..].split_at(length.parse().expect("a length"));
        out += &answer(input);
        rest = after;
    }
    out
}

fn answer(input: &[u8]) -> String {
    compared(input).unwrap_or_else(|(number, line)| format!("refused {number} {line}\n"))
}

/// Each line is judged whole before the next.
fn compared(input: &[u8]) -> Result<String, Refused> {
    if input.len() > 40_000 {
        return Err((11, 0));
    }
    let mut rest = input;
    let config = config(line(&mut rest, 1)?).map_err(|number| (number, 1))?;
    let (mask, size) = mask(line(&mut rest, 2)?).map_err(|number| (number, 2))?;
    let a = row(&config, line(&mut rest, 3)?).map_err(|number| (number, 3))?;
    let b = row(&config, line(&mut rest, 4)?).map_err(|number| (number, 4))?;
    if !rest.is_empty() {
        return Err((11, 5));
    }
    Ok(figures(config.number, mask, size, &a, &b))
}

/// The next line without its newline, which must be there.
fn line<'a>(rest: &mut &'a [u8], number: u32) -> Result<&'a [u8], Refused> {
    let end = rest.iter().position(|&byte| byte == b'\n').ok_or((11, number))?;
    let line = &rest[..end];
    *rest = &rest[end + 1..];
    Ok(line)
}

fn config(line: &[u8]) -> Result<Config, u32> {
    match line {
        b"config" | b"config 7" => Ok(CONFIG_7),
        b"config 10" => Ok(CONFIG_10),
        _ => match line.strip_prefix(b"config ") {
            Some(digits @ ([_] | [_, _])) if digits.iter().all(u8::is_ascii_digit) => Err(1),
            _ => Err(11),
        },
    }
}

fn mask(line: &[u8]) -> Result<(u64, usize), u32> {
    let line = line.strip_prefix(b"mask ").ok_or(11u32)?;
    let space = line.iter().position(|&byte| byte == b' ').ok_or(11u32)?;
    let (mask, size) = (decimal(&line[..space])?, decimal(&line[space + 1..])?);
    if !(1..=63).contains(&size) {
        return Err(6);
    }
    if mask >> size != 0 {
        return Err(7);
    }
    Ok((mask, size as usize))
}

/// A decimal below 2^64 with no sign and no leading zero but `0` itself.
fn decimal(digits: &[u8]) -> Result<u64, u32> {
    let plain = !digits.is_empty() && digits.iter().all(u8::is_ascii_digit);
    if !plain || (digits.len() > 1 && digits[0] == b'0') {
        return Err(11);
    }
    let add = |value: u64, &digit: &u8| value.checked_mul(10)?.checked_add((digit - b'0').into());
    digits.iter().try_fold(0, add).ok_or(11)
}

fn row(config: &Config, line: &[u8]) -> Result<Vec<u8>, u32> {
    let digit = |&byte: &u8| match byte {
        b'0'..=b'9' => Ok(byte - b'0'),
        b'a'..=b'f' => Ok(byte - b'a' + 10),
        _ => Err(11),
    };
    let digits = line.iter().map(digit).collect::<Result<Vec<u8>, u32>>()?;
    if digits.len() % 2 == 1 {
        return Err(11);
    }
    let row: Vec<u8> = digits.chunks(2).map(|pair| 16 * pair[0] + pair[1]).collect();
    judge(config, &row)?;
    Ok(row)
}

/// 4, then 2 over all top entries, then 5: a set has the row where the Rust writes the same bytes
/// for the set that the row shows.
fn judge(config: &Config, row: &[u8]) -> Result<(), u32> {
    let top_bytes = config.top * config.entry_bytes;
    let no_bits = row.len() % config.entry_bytes == 0 && row.len() <= top_bytes;
    let bits = row.len() >= top_bytes + 9 && (row.len() - top_bytes - 1) % 8 == 0;
    if row.len() > config.longest || !(no_bits || bits) {
        return Err(4);
    }
    let (top, bit_part) = row.split_at(row.len().min(top_bytes));
    let number = |bytes: &[u8]| bytes.iter().rev().fold(0, |value, &byte| value << 8 | byte as u32);
    let top: Vec<u32> = top.chunks(config.entry_bytes).map(number).collect();
    if top.iter().any(|&bucket| bucket >= config.buckets) {
        return Err(2);
    }
    let blocks = bit_part.get(1..).unwrap_or_default();
    let set = |&bucket: &u32| blocks[bucket as usize / 8] >> (bucket % 8) & 1 == 1;
    let below = (0..8 * blocks.len() as u32).filter(set);
    let mut shown: Vec<u32> = top.into_iter().chain(below).collect();
    shown.sort_unstable_by(|a, b| b.cmp(a));
    shown.dedup();
    if probe::row_of(config.number, Ones(&shown)) != row {
        return Err(5);
    }
    Ok(())
}

fn figures(config: u32, mask: u64, size: usize, a: &[u8], b: &[u8]) -> String {
    let (a, b) = (Row(a), Row(b));
    let (ones_a, ones_b) = (probe::exact(config, a), probe::exact(config, b));
    let ((count_a, bound_a), (count_b, bound_b)) = (probe::limited(config, a), probe::limited(config, b));
    let apart = probe::exact_difference(config, a, b);
    let (count, bound) = probe::limited_difference(config, a, b);
    let order = format!("{:?}", probe::order(config, a, b, mask, size)).to_lowercase();
    let (key_a, key_b) = (probe::key(config, a, mask, size), probe::key(config, b, mask, size));
    let all = ones_a + ones_b;
    let overlap = if all == 0 { 0 } else { (all - apart) * 1000 / all };
    format!(
        "config {config}\nones {ones_a} {ones_b}\nlimited {count_a} {bound_a} {count_b} {bound_b}\n\
         difference {apart} {count} {bound}\norder {order}\nkey {key_a:016x} {key_b:016x}\noverlap {overlap}\n"
    )
}
