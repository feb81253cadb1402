//! Checks each line of a file of vectors by this verifier, or times it.
//!
//!     cargo run --release --example vectors -- [--sharded] [--time] FILE
//!
//! A line has a format, a root digest, a key, a proof and the answer, separated by tabs. With
//! --sharded the proofs are those of sharded maps. With --time it prints the time of a call, the
//! mean over the lines, each the least of many rounds.
use mst_verifier::{verify, verify_sharded, Error, Format, ROOT_LENGTH};
use std::error::Error as Fault;
use std::process::ExitCode;
use std::time::{Duration, Instant};
use std::{env, fs, hint};

const ROUNDS: u32 = 200;
const CALLS: u32 = 10;
/// The longest time for the rounds of a line.
const LONGEST: Duration = Duration::from_millis(500);

type Verifier =
    for<'p> fn(Format, &[u8; ROOT_LENGTH], &[u8], &'p [u8]) -> Result<Option<&'p [u8]>, Error>;

struct Vector {
    format: Format,
    root: [u8; ROOT_LENGTH],
    key: Vec<u8>,
    proof: Vec<u8>,
    wanted: String,
}

/// Reads hexadecimal digits, `-` for no bytes.
fn bytes_of(word: &str) -> Result<Vec<u8>, Box<dyn Fault>> {
    if word == "-" {
        return Ok(Vec::new());
    }
    if word.len() % 2 != 0 {
        return Err("an odd number of digits".into());
    }
    let pairs = word.as_bytes().chunks_exact(2);
    pairs.map(|pair| Ok(u8::from_str_radix(std::str::from_utf8(pair)?, 16)?)).collect()
}

fn word_of(bytes: &[u8]) -> String {
    if bytes.is_empty() {
        return "-".to_owned();
    }
    bytes.iter().map(|byte| format!("{byte:02x}")).collect()
}

fn vector_of(line: &str) -> Result<Vector, Box<dyn Fault>> {
    let mut words = line.split('\t');
    let mut next = || words.next().ok_or("a line has five fields or more");
    Ok(Vector {
        format: next()?.parse::<u32>()?.try_into()?,
        root: bytes_of(next()?)?.try_into().map_err(|_| "a root digest has 32 bytes")?,
        key: bytes_of(next()?)?,
        proof: bytes_of(next()?)?,
        wanted: next()?.to_owned(),
    })
}

impl Vector {
    fn ask(&self, by: Verifier) -> Result<Option<&[u8]>, Error> {
        by(self.format, &self.root, &self.key, &self.proof)
    }

    /// The answer as a line has it.
    fn told(&self, by: Verifier) -> String {
        match self.ask(by) {
            Ok(Some(value)) => format!("present {}", word_of(value)),
            Ok(None) => "absent".to_owned(),
            Err(Error::Refused(test)) => test.to_string(),
            Err(Error::RefusedSharded(test)) => test.to_string(),
            Err(other) => other.to_string(),
        }
    }

    /// The time of a call, the least of many rounds.
    fn timed(&self, by: Verifier) -> Duration {
        let round = || {
            let start = Instant::now();
            for _ in 0..CALLS {
                let _ = hint::black_box(self.ask(by));
            }
            start.elapsed() / CALLS
        };
        let begun = Instant::now();
        let rounds = (0..ROUNDS).take_while(|_| begun.elapsed() < LONGEST);
        rounds.map(|_| round()).min().unwrap_or_default()
    }
}

fn print_time(by: Verifier, vectors: &[Vector]) {
    let whole: Duration = vectors.iter().map(|it| it.timed(by)).sum();
    let bytes: usize = vectors.iter().map(|it| it.proof.len()).sum();
    let (count, micros) = (vectors.len(), whole.as_secs_f64() * 1e6);
    println!(
        "{count} proofs of {} bytes: {:.1} microseconds a call, the least of up to {ROUNDS} rounds",
        bytes / count,
        micros / count as f64
    );
}

fn main() -> Result<ExitCode, Box<dyn Fault>> {
    let (options, files): (Vec<_>, Vec<_>) =
        env::args().skip(1).partition(|it| it.starts_with("--"));
    let has = |option: &str| options.iter().any(|it| it == option);
    let [file] = &files[..] else {
        return Err("vectors [--sharded] [--time] FILE".into());
    };
    let by: Verifier = if has("--sharded") { verify_sharded } else { verify };
    let vectors: Vec<_> =
        fs::read_to_string(file)?.lines().map(vector_of).collect::<Result<_, _>>()?;
    let mut failed = 0;
    for (place, it) in vectors.iter().enumerate() {
        let told = it.told(by);
        if told != it.wanted {
            failed += 1;
            println!("line {}: {told}, and not {}", place + 1, it.wanted);
        }
    }
    println!("{} vectors as wanted, {failed} not", vectors.len() - failed);
    if failed > 0 || vectors.is_empty() {
        return Ok(ExitCode::FAILURE);
    }
    if has("--time") {
        print_time(by, &vectors);
    }
    Ok(ExitCode::SUCCESS)
}
