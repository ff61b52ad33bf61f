//! Publishes a package's log with keys of P-256, audits it from its bytes alone, and shows that a forged record is refused.
//!
//! With the word `print` the log goes to standard output, an envelope a line in hex; with `audit` one is read from standard input.
use std::error::Error;
use std::io::{self, Write};
use std::time::SystemTime;
use weoldrin::p256::{key_id, sha256_text, SigningKey};
use weoldrin::records::{Entry, NewRecord};
use weoldrin::{printable, Package, PackageLog, PackagePermission};

/// Signs a record that goes on from the log, and appends it.
fn publish(log: &mut PackageLog, signer: &SigningKey, entries: Vec<Entry<Package>>) -> Result<Vec<u8>, Box<dyn Error>> {
    let record = NewRecord { prev: log.head()?, version: 1, timestamp: SystemTime::now(), entries };
    let envelope = record.signed(&key_id(signer.public_key()), |message| signer.sign(message))?;
    log.append_signed(&envelope)?;
    Ok(envelope)
}

/// The envelopes of a new log: alice begins it and lets bob release.
fn published(count: usize) -> Result<Vec<Vec<u8>>, Box<dyn Error>> {
    let (alice, bob) = (SigningKey::generate()?, SigningKey::generate()?);
    let mut log = PackageLog::new()?;
    let begin = vec![Entry::init(alice.public_key()), Entry::grant(bob.public_key(), &[PackagePermission::Release])];
    let mut envelopes = vec![publish(&mut log, &alice, begin)?];
    for minor in 1..count {
        let content = sha256_text(format!("content {minor}").as_bytes());
        let release = vec![Entry::release(&format!("1.{minor}.0"), &content)];
        envelopes.push(publish(&mut log, &bob, release)?);
    }
    Ok(envelopes)
}

/// Audits a log: the one that its envelopes add up to, or the place of the first that is refused, and why.
fn audited(envelopes: &[Vec<u8>]) -> Result<PackageLog, Box<dyn Error>> {
    let mut log = PackageLog::new()?;
    for (place, envelope) in envelopes.iter().enumerate() {
        log.append_signed(envelope).map_err(|error| format!("refused {place} {error}"))?;
    }
    Ok(log)
}

/// Names another content in a release than was signed: the digest behind that of the record before it.
fn forge(envelope: &mut [u8]) {
    let mut digests = (0..envelope.len()).filter(|&at| envelope[at..].starts_with(b"sha256:"));
    if let Some(at) = digests.nth(1) {
        envelope[at + 7] = if envelope[at + 7] == b'0' { b'1' } else { b'0' };
    }
}

fn verdict(log: &PackageLog) -> Result<String, weoldrin::Error> {
    let head = log.head()?.unwrap_or_else(|| "none".to_owned());
    Ok(format!("ok {} {head}", log.len()?))
}

/// The bytes that a line says: an even number of hex digits.
fn from_hex(line: &str) -> Result<Vec<u8>, Box<dyn Error>> {
    if line.len() % 2 != 0 || !line.bytes().all(|it| it.is_ascii_hexdigit()) {
        return Err(format!("no hex: {}", printable(line)).into());
    }
    (0..line.len()).step_by(2).map(|at| Ok(u8::from_str_radix(&line[at..at + 2], 16)?)).collect()
}

/// The envelopes of a log's lines. Comments are passed over, and so is the last of the other lines if it is blank.
fn envelopes(lines: impl Iterator<Item = io::Result<String>>) -> Result<Vec<Vec<u8>>, Box<dyn Error>> {
    let lines: Vec<String> = lines.collect::<Result<_, _>>()?;
    let mut said: Vec<&str> = lines.iter().map(String::as_str).filter(|it| !it.starts_with('#')).collect();
    if said.last().map_or(false, |it| it.is_empty()) {
        said.pop();
    }
    said.into_iter().map(from_hex).collect()
}

/// Publishes a log, audits it, forges a record of it, and audits it again.
fn show(out: &mut impl Write) -> Result<(), Box<dyn Error>> {
    let mut envelopes = published(50)?;
    let log = audited(&envelopes)?;
    writeln!(out, "{}", verdict(&log)?)?;
    let latest = log.latest("*")?.map(|it| it.version);
    writeln!(out, "latest {}", printable(latest.as_deref().unwrap_or("none")))?;
    forge(&mut envelopes[7]);
    match audited(&envelopes) {
        Ok(_) => writeln!(out, "the forged record was taken")?,
        Err(error) => writeln!(out, "{error}")?,
    }
    Ok(())
}

fn run(word: Option<&str>, out: &mut impl Write) -> Result<(), Box<dyn Error>> {
    match word {
        Some("print") => {
            for envelope in published(50)? {
                let digits: String = envelope.iter().map(|it| format!("{it:02x}")).collect();
                writeln!(out, "{digits}")?;
            }
        }
        Some("audit") => {
            let envelopes = envelopes(io::stdin().lines())?;
            // A download that failed is no yes.
            if envelopes.is_empty() {
                return Err("empty".into());
            }
            writeln!(out, "{}", verdict(&audited(&envelopes)?)?)?;
        }
        _ => show(out)?,
    }
    Ok(out.flush()?)
}

fn main() -> Result<(), Box<dyn Error>> {
    let done = run(std::env::args().nth(1).as_deref(), &mut io::stdout().lock());
    match done.as_ref().err().and_then(|it| it.downcast_ref::<io::Error>()) {
        // Whoever read the output has gone.
        Some(error) if error.kind() == io::ErrorKind::BrokenPipe => Ok(()),
        _ => done,
    }
}
