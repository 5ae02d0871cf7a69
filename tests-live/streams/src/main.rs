//! Sends random byte streams to a running `office serve`, one a connection, and compares every reply with a second reading.
//!
//!     streams ADDRESS SEED COUNT [THREADS]
//!
//! The server runs in a folder of its own with a journal that was made. Stream N depends on SEED and N alone, so a difference
//! can be drawn again. Ends with 0 and one line of counts, with 1 after the first 5 differences.

mod draws;
mod reading;

use draws::Draws;
use reading::Expected;
use std::io::{Read, Write};
use std::net::{Shutdown, TcpStream};
use std::sync::atomic::{AtomicU64, Ordering::SeqCst};
use std::time::{Duration, Instant};

struct Counts {
    streams: AtomicU64,
    replies: AtomicU64,
    exact: AtomicU64,
    differences: AtomicU64,
}

/// Sends a stream, ends this side, and reads what comes to its end.
fn talk(address: &str, stream: &[u8]) -> std::io::Result<Vec<u8>> {
    let mut it = TcpStream::connect(address)?;
    it.set_nodelay(true)?;
    it.set_read_timeout(Some(Duration::from_secs(90)))?;
    // The server may have ended its side after the last message of the session: then what is left need not be sent.
    let _ = it.write_all(stream);
    let _ = it.shutdown(Shutdown::Write);
    let mut said = Vec::new();
    it.read_to_end(&mut said)?;
    Ok(said)
}

/// Takes one reply off the front: its status, its body and its length.
fn reply(said: &[u8]) -> Option<(u16, &[u8], usize)> {
    let end = said.windows(4).position(|it| it == b"\r\n\r\n")? + 4;
    let head = std::str::from_utf8(&said[..end]).ok()?;
    let status = head.strip_prefix("HTTP/1.1 ")?.get(..3)?.parse().ok()?;
    let length: usize = head.split("content-length: ").nth(1)?.split("\r\n").next()?.parse().ok()?;
    Some((status, said.get(end..end + length)?, end + length))
}

fn number_of(body: &[u8]) -> Option<u16> {
    let value: serde_json::Value = serde_json::from_slice(body).ok()?;
    value.get("number")?.as_u64()?.try_into().ok()
}

/// Returns why what was said is not what was to be said.
fn difference(said: &[u8], expected: &[Expected]) -> Option<String> {
    let mut rest = said;
    for (place, one) in expected.iter().enumerate() {
        let taken = match one {
            Expected::Exact(bytes) if rest.starts_with(bytes) => bytes.len(),
            Expected::Exact(bytes) => return Some(format!("reply {place}: not {}", bytes.escape_ascii())),
            Expected::Among { success, numbers } => match reply(rest) {
                Some((status, _, length)) if *success == Some(status) => length,
                Some((status, body, length)) if status >= 400 && number_of(body).is_some_and(|it| numbers.contains(&it)) => length,
                _ => return Some(format!("reply {place}: none with status {success:?} or number {numbers:?}")),
            },
        };
        rest = &rest[taken..];
    }
    (!rest.is_empty()).then(|| format!("{} bytes more than {} replies", rest.len(), expected.len()))
}

fn work(address: &str, seed: u64, range: std::ops::Range<u64>, step: u64, counts: &Counts) {
    for nth in range.step_by(step as usize) {
        if counts.differences.load(SeqCst) >= 5 {
            return;
        }
        let mut draws = Draws::new(seed.wrapping_mul(0x2545_f491_4f6c_dd1d) ^ nth.wrapping_mul(0x9e37_79b9_7f4a_7c15));
        let stream = draws::stream(&mut draws);
        let expected = reading::answers(&stream);
        let (said, why) = match talk(address, &stream) {
            Ok(said) => {
                let why = difference(&said, &expected);
                (said, why)
            }
            Err(error) => (Vec::new(), Some(error.to_string())),
        };
        counts.streams.fetch_add(1, SeqCst);
        counts.replies.fetch_add(expected.len() as u64, SeqCst);
        counts.exact.fetch_add(expected.iter().filter(|it| matches!(it, Expected::Exact(_))).count() as u64, SeqCst);
        if let Some(why) = why {
            counts.differences.fetch_add(1, SeqCst);
            println!("difference at stream {nth} of seed {seed}: {why}\n  sent {}\n  said {}", stream[..stream.len().min(2_000)].escape_ascii(), said.escape_ascii());
        }
    }
}

fn main() {
    let words: Vec<String> = std::env::args().skip(1).collect();
    let [address, seed, count, more @ ..] = words.as_slice() else {
        eprintln!("usage: streams ADDRESS SEED COUNT [THREADS]");
        std::process::exit(2);
    };
    let number = |text: &str| text.parse::<u64>().unwrap_or_else(|_| panic!("{text} is no number"));
    let (seed, count, threads) = (number(seed), number(count), more.first().map_or(4, |it| number(it)).max(1));
    let counts = Counts { streams: 0.into(), replies: 0.into(), exact: 0.into(), differences: 0.into() };
    let begun = Instant::now();
    std::thread::scope(|scope| {
        for own in 0..threads {
            let counts = &counts;
            scope.spawn(move || work(address, seed, own..count, threads, counts));
        }
    });
    let of = |it: &AtomicU64| it.load(SeqCst);
    println!(
        "seed {seed}: {} streams, {} replies ({} known to the byte), {} differences, {:.0} s",
        of(&counts.streams), of(&counts.replies), of(&counts.exact), of(&counts.differences), begun.elapsed().as_secs_f64()
    );
    std::process::exit(i32::from(of(&counts.differences) > 0));
}
