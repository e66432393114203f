//! Runs a list of frames from standard input through the library, from a fresh engine, and writes the
//! answer lines to standard output.
//!
//! - `drive frames < list`: each line by `Engine::frame`
//! - `drive typed < list`: each line taken apart here, and its call made by the method of that call
//! - `drive pieces N < list`: the list as a stream, N bytes at a time
//!
//! For `library/check.sh`, which compares the answers with the frame program's.
use linkage::{Engine, Product, Refusal, KEPT, LONGEST};
use std::env;
use std::io::{self, BufWriter, Read, Write};

/// Hands each line on without its line feed; one that has none at the end of the input is not carried out.
fn each_line(out: &mut impl Write, mut answer: impl FnMut(&[u8]) -> Vec<u8>) -> io::Result<()> {
    let mut list = Vec::new();
    io::stdin().read_to_end(&mut list)?;
    let mut rest = &list[..];
    while let Some(n) = rest.iter().position(|b| *b == b'\n') {
        out.write_all(&answer(&rest[..n]))?;
        rest = &rest[n + 1..];
    }
    let mut end = [0; LONGEST];
    let n = linkage::finish(rest.len(), &mut end);
    out.write_all(&end[..n])
}

/// The number of some digits.
fn number(digits: &[u8]) -> Option<u64> {
    digits.iter().try_fold(0, |n, d| match d {
        b'0'..=b'9' => Some(n << 4 | u64::from(d - b'0')),
        b'a'..=b'f' => Some(n << 4 | u64::from(d - b'a' + 10)),
        _ => None,
    })
}

/// The numbers of a line of the right length for its kind: the kind, and its fields.
fn fields(line: &[u8]) -> Option<Vec<u64>> {
    const LENGTHS: [usize; 17] = [0, 6, 6, 6, 6, 6, 4, 6, 22, 10, 6, 4, 6, 22, 10, 6, 6];
    let kind = number(line.get(..2)?)?;
    if kind < 1 || LENGTHS.get(kind as usize) != Some(&line.len()) {
        return None;
    }
    let short = if line.len() == 22 { 6 } else { line.len() };
    let mut numbers = line[..short]
        .chunks(2)
        .map(number)
        .collect::<Option<Vec<_>>>()?;
    if line.len() == 22 {
        numbers.push(number(&line[6..])?);
    }
    Some(numbers)
}

/// The digits of an accepted answer behind its `00`.
fn call(e: &mut Engine, line: &[u8]) -> Result<String, Refusal> {
    let x = fields(line).ok_or(Refusal::Malformed)?;
    let at = |i: usize| x[i] as usize;
    let version = |v: u32| format!("{v:08x}");
    // The term bank's kinds are five after the server's.
    let (kind, product) = match x[0] {
        11..=15 => (x[0] - 5, Product::TermBank),
        kind => (kind, Product::Server),
    };
    match kind {
        1 => e.assign(at(1), at(2)).map(version),
        2 => e.withdraw(at(1), at(2)).map(version),
        3 => e.permit(at(1), at(2)).map(version),
        4 => e.revoke(at(1), at(2)).map(version),
        5 => e.forward(at(1), at(2)).map(version),
        6 => e.open(product, at(1)).map(version),
        7 => e
            .conflicting(product, at(1), at(2))
            .map(|roles| format!("{roles:016x}")),
        8 => e
            .add(product, at(1), at(2), x[3])
            .map(|f| format!("{:02x}{:02x}{:08x}", f.flow, f.reach, f.version)),
        9 => e
            .read(product, at(1), at(2), at(3), at(4))
            .map(|()| String::new()),
        10 => e.show(product, at(1), at(2)).map(|c| {
            let sets = c.roles[..=at(2)].iter().map(|s| format!("{s:016x}"));
            format!(
                "{:08x}{:016x}{}",
                c.version,
                c.deny,
                sets.collect::<String>()
            )
        }),
        _ => e.mandate(at(1), at(2)).map(version),
    }
}

fn by_call(e: &mut Engine, line: &[u8]) -> Vec<u8> {
    let answer = match call(e, line) {
        Ok(digits) => format!("00{digits}\n"),
        Err(refusal) => format!("{:02x}\n", refusal.number()),
    };
    answer.into_bytes()
}

/// What is left of a piece when nothing more is taken has no line feed, so no more than `KEPT` bytes are
/// kept: the buffer has room for the next piece behind them.
fn by_piece(out: &mut impl Write, piece: usize) -> io::Result<()> {
    let (mut engine, mut answers) = (Engine::new(), [0; LONGEST + 45]);
    let (mut buffer, mut kept) = (vec![0; KEPT + piece], 0);
    let mut input = io::stdin().lock();
    loop {
        let got = input.read(&mut buffer[kept..kept + piece])?;
        if got == 0 {
            break;
        }
        let (mut from, filled) = (0, kept + got);
        loop {
            let fed = engine.feed(&buffer[from..filled], &mut answers);
            out.write_all(&answers[..fed.written])?;
            from += fed.consumed;
            if fed.consumed == 0 {
                break;
            }
        }
        kept = linkage::keep(&mut buffer, from, filled);
    }
    let n = linkage::finish(kept, &mut answers);
    out.write_all(&answers[..n])
}

fn main() -> io::Result<()> {
    let words: Vec<String> = env::args().skip(1).collect();
    let words: Vec<&str> = words.iter().map(String::as_str).collect();
    let mut out = BufWriter::new(io::stdout().lock());
    let mut engine = Engine::new();
    match words[..] {
        ["frames"] => each_line(&mut out, |line| {
            engine.frame(line, &mut [0; LONGEST]).to_vec()
        })?,
        ["typed"] => each_line(&mut out, |line| by_call(&mut engine, line))?,
        ["pieces", n] => by_piece(&mut out, n.parse().expect("a number of bytes"))?,
        _ => {
            eprintln!("usage: drive frames | typed | pieces N   < list");
            std::process::exit(2);
        }
    }
    out.flush()
}
