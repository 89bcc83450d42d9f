//! The job of `clu solve FILE --branchings 0` as one writes it in Rust without proofs, to compare times with.

use std::env;
use std::fmt::Write as _;
use std::fs;
use std::io::{self, ErrorKind, Write as _};
use std::process::ExitCode;

const MAX_VERTICES: u32 = 1_000;
const MAX_BYTES: usize = 67_108_864;

#[derive(Clone, Copy)]
enum Stop {
    Refused = 4,
    Words = 6,
    ReadFault = 7,
    WriteFault = 8,
    TooLong = 10,
    NoFile = 11,
}

impl Stop {
    fn text(self) -> &'static str {
        match self {
            Stop::Refused => "graph Refused",
            Stop::Words => "words",
            Stop::ReadFault => "read fault",
            Stop::WriteFault => "write fault",
            Stop::TooLong => "too long",
            Stop::NoFile => "no file",
        }
    }
}

/// Vertices from 0, edges with the smaller vertex first.
struct Graph {
    n: usize,
    edges: Vec<(u32, u32)>,
}

fn fields(line: &[u8]) -> impl Iterator<Item = &[u8]> {
    line.split(|byte| matches!(byte, b' ' | b'\t'))
        .filter(|field| !field.is_empty())
}

/// The lines that are neither blank nor a comment.
fn kept_lines(bytes: &[u8]) -> impl Iterator<Item = &[u8]> {
    bytes
        .split(|byte| *byte == b'\n')
        .map(|line| line.strip_suffix(b"\r").unwrap_or(line))
        .filter(|line| fields(line).next().is_some_and(|field| field[0] != b'c'))
}

fn number(field: &[u8]) -> Option<u32> {
    field.iter().try_fold(0u32, |number, byte| {
        let digit = byte.checked_sub(b'0').filter(|digit| *digit < 10)?;
        number.checked_mul(10)?.checked_add(u32::from(digit))
    })
}

fn read_header(line: &[u8]) -> Option<(u32, u32)> {
    let mut fields = fields(line);
    if fields.next()? != b"p" || fields.next()? != b"cep" {
        return None;
    }
    let header = (number(fields.next()?)?, number(fields.next()?)?);
    fields.next().is_none().then_some(header)
}

fn read_edge(line: &[u8], n: u32) -> Option<(u32, u32)> {
    let mut fields = fields(line);
    let (u, v) = (number(fields.next()?)?, number(fields.next()?)?);
    let is_edge = fields.next().is_none() && u != v && u.min(v) >= 1 && u.max(v) <= n;
    is_edge.then(|| (u.min(v) - 1, u.max(v) - 1))
}

fn read_graph(bytes: &[u8]) -> Option<Graph> {
    let mut lines = kept_lines(bytes);
    let (n, m) = read_header(lines.next()?)?;
    if n > MAX_VERTICES {
        return None;
    }
    let size = n as usize;
    // whether two vertices are adjacent
    let mut near = vec![false; size * size];
    let mut edges = Vec::new();
    for line in lines {
        let (u, v) = read_edge(line, n)?;
        let cell = u as usize * size + v as usize;
        if near[cell] {
            return None;
        }
        near[cell] = true;
        edges.push((u, v));
    }
    (edges.len() == m as usize).then_some(Graph { n: size, edges })
}

/// A greedy packing of triangles, with weights as wide as `clu` has them.
struct Packing {
    n: usize,
    /// What is left of the weight of each pair, the smaller vertex first.
    left: Vec<i128>,
    /// The multipliers so far.
    spent: i128,
}

impl Packing {
    fn new(graph: &Graph) -> Packing {
        let n = graph.n;
        let mut left = vec![-1; n * n];
        for (u, v) in &graph.edges {
            left[*u as usize * n + *v as usize] = 1;
        }
        Packing { n, left, spent: 0 }
    }

    /// The later vertices of each whose pair with it has a weight above 0.
    fn near(&self) -> Vec<Vec<usize>> {
        let row = |i: usize| (i + 1..self.n).filter(move |k| self.left[i * self.n + k] > 0);
        (0..self.n).map(|i| row(i).collect()).collect()
    }

    fn visit(&mut self, i: usize, j: usize, k: usize) {
        let (ij, ik, jk) = (i * self.n + j, i * self.n + k, j * self.n + k);
        let (a, b, across) = if self.left[jk] <= 0 {
            (ij, ik, jk)
        } else if self.left[ik] <= 0 {
            (ij, jk, ik)
        } else {
            (ik, jk, ij)
        };
        let y = self.left[a].min(self.left[b]).min(-self.left[across]);
        if y > 0 {
            self.left[a] -= y;
            self.left[b] -= y;
            self.left[across] += y;
            self.spent += y;
        }
    }

    fn is_above(&self, u: usize, v: usize) -> bool {
        self.left[u * self.n + v] > 0
    }

    fn pack(&mut self) {
        let near = self.near();
        for i in 0..self.n {
            for j in i + 1..self.n {
                if self.is_above(i, j) {
                    for k in j + 1..self.n {
                        if self.is_above(i, k) != self.is_above(j, k) {
                            self.visit(i, j, k);
                        }
                    }
                } else {
                    for k in &near[j] {
                        if self.is_above(i, *k) {
                            self.visit(i, j, *k);
                        }
                    }
                }
            }
        }
    }

    fn bound(mut self, m: usize) -> i128 {
        self.pack();
        let open = (0..self.n).flat_map(|i| &self.left[i * self.n + i + 1..(i + 1) * self.n]);
        m as i128 - self.spent - open.filter(|w| **w > 0).sum::<i128>()
    }
}

/// The report of blocks of one vertex, so that each edge is an edit.
fn report(n: usize, value: usize, bound: usize) -> String {
    let verdict = if value == bound { "optimal" } else { "gap branchings" };
    let mut text = format!(
        "objective edits\nvertices {n}\nvalue {value}\nbound {bound}\nscale 1\nverdict {verdict}\nbranchings 0\nblocks {n}\n",
    );
    for v in 1..=n {
        writeln!(text, "block {v}").expect("a String takes all");
    }
    text
}

fn run(words: &[String]) -> Result<u8, Stop> {
    let [command, file, option, branchings] = words else {
        return Err(Stop::Words);
    };
    if command != "solve" || file.starts_with('-') || option != "--branchings" || branchings != "0" {
        return Err(Stop::Words);
    }
    let bytes = fs::read(file).map_err(|error| match error.kind() {
        ErrorKind::NotFound => Stop::NoFile,
        _ => Stop::ReadFault,
    })?;
    if bytes.len() > MAX_BYTES {
        return Err(Stop::TooLong);
    }
    let graph = read_graph(&bytes).ok_or(Stop::Refused)?;
    let value = graph.edges.len();
    let bound = Packing::new(&graph).bound(value) as usize;
    let text = report(graph.n, value, bound);
    let mut out = io::stdout().lock();
    out.write_all(text.as_bytes())
        .and_then(|()| out.flush())
        .map_err(|_| Stop::WriteFault)?;
    Ok(u8::from(value != bound))
}

fn main() -> ExitCode {
    let words: Result<Vec<String>, _> =
        env::args_os().skip(1).map(|word| word.into_string()).collect();
    let result = words.map_err(|_| Stop::Words).and_then(|words| run(&words));
    ExitCode::from(result.unwrap_or_else(|stop| {
        let _ = writeln!(io::stderr(), "clu: {}", stop.text());
        stop as u8
    }))
}
