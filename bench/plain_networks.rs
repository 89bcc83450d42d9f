//! The reader of edge lists as one writes it in Rust without proofs, to compare times with: it reads the file that its
//! word names, and prints how many vertices, lines and decimal places the network has.

use std::collections::HashMap;
use std::env;
use std::fs;
use std::process::ExitCode;
use std::str::from_utf8;

const MAX_VERTICES: usize = 1_000;
const MAX_LINES: usize = 1_000_000;
const MAX_PLACES: usize = 9;
const MAX_ONES: u64 = 1_000_000_000_000_000_000;

#[derive(Clone, Copy, Debug)]
enum Cause {
    TooManyFields,
    BadWeight,
    TooManyVertices,
    TooManyLines,
    NotText,
}

struct NetError {
    cause: Cause,
    line: usize,
}

struct Decimal {
    units: i128,
    places: u8,
}

struct Joint {
    line: u64,
    u: u32,
    v: u32,
    weight: Decimal,
}

struct NetLine {
    line: u64,
    u: u32,
    v: u32,
    weight: i128,
}

struct Network {
    names: Vec<String>,
    places: u8,
    lines: Vec<NetLine>,
}

#[derive(Default)]
struct Names {
    numbers: HashMap<String, u32>,
    names: Vec<String>,
}

impl Names {
    fn number(&mut self, name: &str) -> Option<u32> {
        if let Some(number) = self.numbers.get(name) {
            return Some(*number);
        }
        if self.names.len() == MAX_VERTICES {
            return None;
        }
        let number = self.names.len() as u32;
        self.numbers.insert(name.to_string(), number);
        self.names.push(name.to_string());
        Some(number)
    }
}

fn fields(line: &str) -> impl Iterator<Item = &str> {
    line.split([' ', '\t']).filter(|field| !field.is_empty())
}

fn is_kept(line: &[u8]) -> bool {
    let first = line.iter().find(|byte| !matches!(byte, b' ' | b'\t'));
    !matches!(first, None | Some(b'#' | b'%'))
}

/// The value of digits alone, or of none, below a limit.
fn digits_below(digits: &[u8], limit: u64) -> Option<u64> {
    digits.iter().try_fold(0u64, |value, byte| {
        let digit = byte.checked_sub(b'0').filter(|digit| *digit < 10)?;
        Some(value * 10 + u64::from(digit)).filter(|value| *value < limit)
    })
}

fn read_decimal(field: &[u8]) -> Option<Decimal> {
    let (negative, rest) = match field {
        [b'-', rest @ ..] => (true, rest),
        [b'+', rest @ ..] => (false, rest),
        _ => (false, field),
    };
    let end = rest.iter().position(|byte| *byte == b'.').unwrap_or(rest.len());
    let (whole, fraction) = (&rest[..end], rest.get(end + 1..).unwrap_or(&[]));
    if whole.is_empty() && fraction.is_empty() || fraction.len() > MAX_PLACES {
        return None;
    }
    let ones = digits_below(whole, MAX_ONES)?;
    let parts = digits_below(fraction, MAX_ONES)?;
    let places = fraction.len() as u8;
    let size = i128::from(ones) * i128::from(10u64.pow(u32::from(places))) + i128::from(parts);
    let units = if negative { -size } else { size };
    Some(Decimal { units, places })
}

fn read_line(names: &mut Names, number: usize, bytes: &[u8]) -> Result<Option<Joint>, NetError> {
    if !is_kept(bytes) {
        return Ok(None);
    }
    let refused = |cause| NetError { cause, line: number };
    let line = from_utf8(bytes).map_err(|_| refused(Cause::NotText))?;
    let mut rest = fields(line);
    let (u, v, weight) = (rest.next().unwrap_or(""), rest.next(), rest.next());
    if rest.next().is_some() {
        return Err(refused(Cause::TooManyFields));
    }
    let weight = match weight {
        Some(field) => read_decimal(field.as_bytes()).ok_or(refused(Cause::BadWeight))?,
        None => Decimal { units: 1, places: 0 },
    };
    let u = names.number(u).ok_or(refused(Cause::TooManyVertices))?;
    let Some(v) = v else { return Ok(None) };
    let v = names.number(v).ok_or(refused(Cause::TooManyVertices))?;
    Ok(Some(Joint { line: number as u64, u, v, weight }))
}

fn scaled(joint: &Joint, places: u8) -> NetLine {
    let factor = 10i128.pow(u32::from(places - joint.weight.places));
    NetLine { line: joint.line, u: joint.u, v: joint.v, weight: joint.weight.units * factor }
}

fn read_network(bytes: &[u8]) -> Result<Network, NetError> {
    let mut names = Names::default();
    let mut joints = Vec::new();
    let mut lines = bytes.split(|byte| *byte == b'\n').peekable();
    let mut number = 0;
    while let Some(line) = lines.next() {
        if line.is_empty() && lines.peek().is_none() {
            break;
        }
        number += 1;
        if number > MAX_LINES {
            return Err(NetError { cause: Cause::TooManyLines, line: number });
        }
        let line = line.strip_suffix(b"\r").unwrap_or(line);
        joints.extend(read_line(&mut names, number, line)?);
    }
    let places = joints.iter().map(|joint| joint.weight.places).max().unwrap_or(0);
    let lines = joints.iter().map(|joint| scaled(joint, places)).collect();
    Ok(Network { names: names.names, places, lines })
}

/// A number that depends on each part of each line, so that none of the work is left out.
fn mark(network: &Network) -> i128 {
    network.lines.iter().fold(0, |sum, line| {
        let ends = i128::from(line.line) + i128::from(line.u) + i128::from(line.v);
        sum.wrapping_mul(31).wrapping_add(ends + line.weight)
    })
}

fn main() -> ExitCode {
    let path = env::args().nth(1).unwrap_or_default();
    let Ok(bytes) = fs::read(path) else { return ExitCode::FAILURE };
    match read_network(&bytes) {
        Ok(network) => {
            let (vertices, lines) = (network.names.len(), network.lines.len());
            println!("{vertices} vertices, {lines} lines, {} places, {}", network.places, mark(&network));
            ExitCode::SUCCESS
        }
        Err(error) => {
            println!("{:?} line {}", error.cause, error.line);
            ExitCode::FAILURE
        }
    }
}
