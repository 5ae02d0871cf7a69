//! A blocking HTTP server over Rust's standard library, against which `serve.py` measures `office serve`.
//!
//!     rustc --edition 2021 -C opt-level=3 -o plain_server plain_server.rs
//!     ./plain_server ADDRESS WORKERS [JOURNAL ENTRY_BYTES]
//!
//! Each worker accepts a connection and serves it to its end, as a worker of the office does. A message is read by
//! hand: its method, its target, Content-Length and Connection. Three requests are answered, with the bytes that the
//! office answers them with: `PUT /buckets/NAME` makes a bucket, `GET /buckets/NAME` tells it, and with a JOURNAL
//! `PUT /buckets/NAME/objects/KEY` counts an object; everything else gets 404. The buckets lie in a map under a lock.
//! Under that lock an object's entry of ENTRY_BYTES is written to the new file JOURNAL as the office writes one: its
//! length, the entry, and a closed gate, with zeros up to the end of its block of the file where that is a new one; a data
//! sync, the gate, a data sync. What the entry says is not written. It serves until it is stopped.

use std::collections::HashMap;
use std::fs::File;
use std::io::{Read, Write};
use std::net::{TcpListener, TcpStream};
use std::os::unix::fs::FileExt;
use std::sync::Mutex;

/// In how many bytes at a time the file is made longer.
const BLOCK: u64 = 4096;

/// A file of entries, each behind a gate of one byte that is opened once the entry is synced.
struct Journal {
    file: File,
    end_gate: u64,
    entry: Vec<u8>,
}

impl Journal {
    fn append(&mut self) -> std::io::Result<()> {
        let (gate, size) = (self.end_gate, self.entry.len() as u64);
        self.file.write_all_at(&(size as u32).to_be_bytes(), gate + 1)?;
        self.file.write_all_at(&self.entry, gate + 5)?;
        let end = gate + 5 + size;
        let closed = if end / BLOCK == gate / BLOCK { 1 } else { BLOCK - end % BLOCK };
        self.file.write_all_at(&[0; BLOCK as usize][..closed as usize], end)?;
        self.file.sync_data()?;
        self.file.write_all_at(&[0xA5], gate)?;
        self.file.sync_data()?;
        self.end_gate = end;
        Ok(())
    }
}

#[derive(Default)]
struct Office {
    /// How many versions each bucket has, by its name.
    versions: HashMap<Vec<u8>, u64>,
    journal: Option<Journal>,
}

impl Office {
    /// Counts an object and makes it durable, or tells of none where the bucket or the journal is missing.
    fn put_object(&mut self, bucket: &[u8]) -> Option<std::io::Result<()>> {
        let versions = self.versions.get_mut(bucket)?;
        let journal = self.journal.as_mut()?;
        *versions += 1;
        Some(journal.append())
    }
}

/// A message whose head is whole.
struct Request<'a> {
    method: &'a [u8],
    target: &'a [u8],
    /// How many bytes the head and the body have.
    size: usize,
    /// Whether a further message may follow.
    keep: bool,
}

enum Parsed<'a> {
    Whole(Request<'a>),
    Partial,
    Bad,
}

/// The first line's method and target, and whether the version keeps the connection.
fn first_line(line: &[u8]) -> Option<(&[u8], &[u8], bool)> {
    let mut words = line.split(|&byte| byte == b' ');
    let (method, target, version) = (words.next()?, words.next()?, words.next()?);
    match (words.next(), version) {
        (None, b"HTTP/1.1") => Some((method, target, true)),
        (None, b"HTTP/1.0") => Some((method, target, false)),
        _ => None,
    }
}

/// What stands at the front of the bytes.
fn parse(bytes: &[u8]) -> Parsed<'_> {
    let mut at = 0;
    let mut first = None;
    let (mut body, mut keep) = (0usize, true);
    loop {
        let Some(len) = bytes[at..].iter().position(|&byte| byte == b'\n') else {
            return Parsed::Partial;
        };
        let line = bytes[at..at + len].strip_suffix(b"\r").unwrap_or(&bytes[at..at + len]);
        at += len + 1;
        let Some((method, target)) = first else {
            let Some((method, target, keeps)) = first_line(line) else { return Parsed::Bad };
            keep = keeps;
            first = Some((method, target));
            continue;
        };
        if line.is_empty() {
            let size = at + body;
            if size > bytes.len() {
                return Parsed::Partial;
            }
            return Parsed::Whole(Request { method, target, size, keep });
        }
        let Some(colon) = line.iter().position(|&byte| byte == b':') else { return Parsed::Bad };
        let (name, value) = (&line[..colon], line[colon + 1..].trim_ascii());
        if name.eq_ignore_ascii_case(b"content-length") {
            match std::str::from_utf8(value).ok().and_then(|value| value.parse().ok()) {
                Some(n) => body = n,
                None => return Parsed::Bad,
            }
        } else if name.eq_ignore_ascii_case(b"connection") && value.eq_ignore_ascii_case(b"close") {
            keep = false;
        }
    }
}

/// The status line's rest and the body of the answer.
fn answer(method: &[u8], target: &[u8], office: &Mutex<Office>) -> (&'static str, String) {
    let path = target.strip_prefix(b"/buckets/").unwrap_or_default();
    let (name, object) = match path.iter().position(|&byte| byte == b'/') {
        Some(at) => (&path[..at], path[at..].strip_prefix(b"/objects/")),
        None => (path, None),
    };
    let told = String::from_utf8_lossy(name);
    let mut office = office.lock().unwrap();
    match (method, office.versions.get(name), object) {
        (b"PUT", _, Some(_)) => match office.put_object(name) {
            Some(Ok(())) => {
                ("201 Created", r#"{"moment":"2026-11-27T10:15:51.432Z","version":"null"}"#.to_string())
            }
            _ => ("503 Service Unavailable", r#"{"error":"StoreFault","number":101}"#.to_string()),
        },
        (b"GET", Some(versions), None) if name == path => {
            let rest = format!(r#""rules":0,"uploads":0,"versioning":"Unversioned","versions":{versions}}}"#);
            ("200 OK", format!(r#"{{"bucket":"{told}",{rest}"#))
        }
        (b"PUT", None, None) if !name.is_empty() && name == path => {
            office.versions.insert(name.to_vec(), 0);
            ("201 Created", format!(r#"{{"bucket":"{told}"}}"#))
        }
        _ => ("404 Not Found", r#"{"error":"NoRoute","number":121}"#.to_string()),
    }
}

fn serve(mut stream: TcpStream, office: &Mutex<Office>) -> std::io::Result<()> {
    stream.set_nodelay(true)?;
    let mut room = vec![0u8; 65_536];
    let mut held = 0;
    let mut out = Vec::with_capacity(1024);
    loop {
        match parse(&room[..held]) {
            Parsed::Whole(request) => {
                let (status, body) = answer(request.method, request.target, office);
                let (size, keep) = (request.size, request.keep);
                out.clear();
                write!(out, "HTTP/1.1 {status}\r\ncontent-type: application/json\r\n")?;
                write!(out, "content-length: {}\r\n\r\n{body}", body.len())?;
                stream.write_all(&out)?;
                room.copy_within(size..held, 0);
                held -= size;
                if !keep {
                    return Ok(());
                }
            }
            Parsed::Partial if held < room.len() => {
                let got = stream.read(&mut room[held..])?;
                if got == 0 {
                    return Ok(());
                }
                held += got;
            }
            Parsed::Partial | Parsed::Bad => return Ok(()),
        }
    }
}

/// The words of the command line: an address, a number of workers, and the journal where one is kept.
fn read_words(words: &[String]) -> (&str, usize, Option<Journal>) {
    let (address, workers, journal) = match words {
        [address, workers] => (address, workers, None),
        [address, workers, path, bytes] => {
            let file = File::create_new(path).expect("JOURNAL");
            file.sync_all().expect("JOURNAL");
            let entry = vec![0x42; bytes.parse().expect("ENTRY_BYTES")];
            (address, workers, Some(Journal { file, end_gate: 10, entry }))
        }
        _ => panic!("usage: plain_server ADDRESS WORKERS [JOURNAL ENTRY_BYTES]"),
    };
    (address, workers.parse().expect("WORKERS"), journal)
}

fn main() {
    let words: Vec<String> = std::env::args().skip(1).collect();
    let (address, workers, journal) = read_words(&words);
    let listener = TcpListener::bind(address).expect("listen");
    let office = Mutex::new(Office { journal, ..Office::default() });
    std::thread::scope(|scope| {
        for _ in 0..workers {
            scope.spawn(|| {
                for stream in listener.incoming().flatten() {
                    // A connection that fails ends alone.
                    let _ = serve(stream, &office);
                }
            });
        }
    });
}
