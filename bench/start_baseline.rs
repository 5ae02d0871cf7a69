//! Baseline for a start from a checkpoint: makes the records of a checkpoint in plain std Rust, and nothing else.
//!
//! It reads the buckets and the versions of their keys (docs/FORMATS.md, "The body of a checkpoint", parts 1 to 4) into
//! a `BTreeMap` for each bucket, which is collected in the order of the file, and drops them. It checks only UTF-8 and
//! lengths, and keeps no rules, tariffs, uploads, sums, meters or counts.
//!
//! Build and run (no dependencies):
//!     rustc --edition 2021 -C opt-level=3 -o start_baseline start_baseline.rs
//!     ./start_baseline office-data/check.0
//! It prints how many buckets and versions there are.

use std::collections::BTreeMap;

/// The gate, the position in the journal, and the length of the body.
const FRONT: usize = 17;

struct Version {
    id: u64,
    created: u64,
    ceased: u64,
    object: Option<Object>,
}

struct Object {
    size: u64,
    class: u8,
    entered: u64,
    tags: Vec<(String, String)>,
}

struct Stack {
    changed: u64,
    versions: Vec<Version>,
}

struct Bytes<'a>(&'a [u8]);

impl<'a> Bytes<'a> {
    fn take(&mut self, count: usize) -> &'a [u8] {
        let (front, rest) = self.0.split_at(count);
        self.0 = rest;
        front
    }

    fn number(&mut self, width: usize) -> u64 {
        self.take(width).iter().fold(0, |number, byte| number << 8 | u64::from(*byte))
    }

    fn text(&mut self) -> String {
        let length = self.number(2) as usize;
        String::from_utf8(self.take(length).to_vec()).expect("UTF-8")
    }

    fn tariff(&mut self) {
        self.take(3);
        for _ in 0..6 {
            let tiers = self.number(1) as usize;
            self.take(tiers * 8);
        }
        self.take(20);
    }

    fn head(&mut self) -> String {
        let name = self.text();
        self.take(9);
        let rules = self.number(4) as usize;
        self.take(rules + 16);
        name
    }

    fn object(&mut self) -> Object {
        let (size, class, entered) = (self.number(8), self.number(1) as u8, self.number(8));
        let tags = (0..self.number(1)).map(|_| (self.text(), self.text())).collect();
        Object { size, class, entered, tags }
    }

    fn version(&mut self) -> Version {
        let (id, is_object) = (self.number(8), self.number(1) == 0);
        let (created, ceased) = (self.number(8), self.number(8));
        Version { id, created, ceased, object: is_object.then(|| self.object()) }
    }

    fn stack(&mut self) -> (String, Stack) {
        let (key, changed) = (self.text(), self.number(8));
        let versions = (0..self.number(4)).map(|_| self.version()).collect();
        (key, Stack { changed, versions })
    }
}

fn main() {
    let path = std::env::args().nth(1).expect("the path of a checkpoint");
    let file = std::fs::read(path).expect("a file");
    let mut bytes = Bytes(&file);
    bytes.take(FRONT);
    bytes.take(11);
    (0..bytes.number(1)).for_each(|_| bytes.tariff());
    for _ in 0..bytes.number(4) {
        bytes.take(3);
        bytes.tariff();
    }
    let names: Vec<String> = (0..bytes.number(4)).map(|_| bytes.head()).collect();
    let buckets: Vec<BTreeMap<String, Stack>> =
        names.iter().map(|_| (0..bytes.number(4)).map(|_| bytes.stack()).collect()).collect();
    let versions: Vec<&Version> = buckets.iter().flat_map(|it| it.values()).flat_map(|it| &it.versions).collect();
    let of = |it: &Version| it.object.as_ref().map_or(0, |o| o.size + u64::from(o.class) + o.entered + o.tags.len() as u64);
    let last = buckets.iter().flat_map(|it| it.values()).map(|it| it.changed).max();
    let sum = versions.iter().fold(0, |sum: u64, it| sum.wrapping_add(it.id + it.created + it.ceased + of(it)));
    println!("buckets {} versions {} last {last:?} sum {sum}", names.len(), versions.len());
}
