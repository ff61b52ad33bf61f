//! Times the appending of a package log whose records are signed by the toy scheme: `cargo bench -- RUNS < LOG`, an envelope a line in
//! hex. Prints the least time of the runs in nanoseconds a record: asking, verifying by libcrypto, appending.
use std::error::Error;
use std::io::stdin;
use std::time::{Duration, Instant};
use weoldrin::p256::sha256_text;
use weoldrin::{PackageLog, SignatureCheck};

/// The bytes of base64 with padding.
fn base64(digits: &str) -> Vec<u8> {
    let value = |digit: u8| match digit {
        b'A'..=b'Z' => digit - b'A',
        b'a'..=b'z' => digit - b'a' + 26,
        b'0'..=b'9' => digit - b'0' + 52,
        b'+' => 62,
        _ => 63,
    };
    let digits: Vec<u8> = digits.bytes().take_while(|it| *it != b'=').map(value).collect();
    let bits = |quad: &[u8]| quad.iter().enumerate().fold(0u32, |sum, (i, it)| sum | u32::from(*it) << (18 - 6 * i));
    digits.chunks(4).flat_map(|quad| bits(quad).to_be_bytes()[1..quad.len()].to_vec()).collect()
}

/// A key is the bytes of a name, a signature the SHA-256 of these and the message.
fn verify_toy(question: &SignatureCheck) -> bool {
    let digits = |text: &str| base64(text.strip_prefix("toy:").unwrap_or_default());
    let digest = sha256_text(&[&digits(question.key()), question.message()].concat());
    let signature: String = digits(question.signature()).iter().map(|it| format!("{it:02x}")).collect();
    digest.strip_prefix("sha256:") == Some(signature.as_str())
}

/// The time of asking, of verifying and of appending all records.
fn run(envelopes: &[Vec<u8>]) -> Result<[Duration; 3], weoldrin::Error> {
    let mut log = PackageLog::new()?;
    let mut times = [Duration::ZERO; 3];
    for envelope in envelopes {
        let start = Instant::now();
        let question = log.ask(envelope)?;
        let asked = Instant::now();
        let belongs = verify_toy(&question);
        let verified = Instant::now();
        log.append_answered(envelope, &question, belongs)?;
        drop(question);
        times[2] += verified.elapsed();
        times[1] += verified - asked;
        times[0] += asked - start;
    }
    Ok(times)
}

fn from_hex(line: &str) -> Result<Vec<u8>, Box<dyn Error>> {
    let digits = line.as_bytes().chunks(2).map(std::str::from_utf8);
    digits.map(|pair| Ok(u8::from_str_radix(pair?, 16)?)).collect()
}

fn main() -> Result<(), Box<dyn Error>> {
    let runs = std::env::args().filter_map(|it| it.parse().ok()).next().unwrap_or(9);
    let envelopes: Result<Vec<_>, Box<dyn Error>> = stdin().lines().map(|line| from_hex(&line?)).collect();
    let envelopes = envelopes?;
    let mut all = (0..runs).map(|_| run(&envelopes)).collect::<Result<Vec<_>, _>>()?;
    all.sort_by_key(|it| it[0] + it[2]);
    let each = |time: Duration| time.as_nanos() / envelopes.len().max(1) as u128;
    if let Some([asking, verifying, appending]) = all.first().copied() {
        println!("ask {} verify {} append {}", each(asking), each(verifying), each(appending));
    }
    Ok(())
}
