#!/usr/bin/env python3
"""Lifecycle configurations a second: python3 bench/rules.py PROGRAM [ROUNDS] [FOLDER]

A configuration of 1,000 rules with transitions, an expiration, a prefix and two tags each. The program gets it in as many requests as TURNS, over a journal
in a new folder below FOLDER (/dev/shm): once so that each is read, checked, printed again and kept, and once with a flaw in the last rule, so that each is
read, checked and refused; the time of a run without such requests is taken off. The baseline is serde_json in Rust, which reads the same bytes into a
`Value` as often, and checks nothing; it is built by cargo from Debian's package librust-serde-json-dev. Medians of the rounds, which alternate.
"""
import json
import statistics
import subprocess
import sys
import tempfile
import time
from pathlib import Path

TURNS, REGISTRY = 20, "/usr/share/cargo/registry"
SOURCE = """use std::time::Instant;
fn main() {
    let words: Vec<String> = std::env::args().collect();
    let bytes = std::fs::read(&words[1]).unwrap();
    let turns: u32 = words[2].parse().unwrap();
    let started = Instant::now();
    let mut members = 0;
    for _ in 0..turns {
        let value: serde_json::Value = serde_json::from_slice(&bytes).unwrap();
        members += value.as_object().unwrap().len();
    }
    println!("{} {members}", started.elapsed().as_secs_f64());
}
"""


def configuration(last, count=1_000):
    """Of so many rules, whose last one expires objects after so many days."""
    rules = [{"ID": f"rule number {it}", "Status": "Enabled",
              "Filter": {"And": {"Prefix": f"logs/{it:04}/", "Tags": [{"Key": "kind", "Value": "raw"}, {"Key": "keep", "Value": "no"}]}},
              "Transitions": [{"Days": 30, "StorageClass": "STANDARD_IA"}, {"Days": 90, "StorageClass": "GLACIER"}],
              "Expiration": {"Days": last if it == count - 1 else 365}}
             for it in range(count)]
    return json.dumps({"Rules": rules, "TransitionDefaultMinimumObjectSize": "all_storage_classes_128K"}, indent=1).encode()


def build(folder):
    Path(folder, "src").mkdir()
    Path(folder, "src/main.rs").write_text(SOURCE)
    Path(folder, "Cargo.toml").write_text('[package]\nname = "baseline"\nversion = "0.1.0"\nedition = "2021"\n[dependencies]\nserde_json = "1"\n')
    Path(folder, ".cargo").mkdir()
    Path(folder, ".cargo/config.toml").write_text(
        f'[source.crates-io]\nreplace-with = "debian"\n[source.debian]\ndirectory = "{REGISTRY}"\n')
    subprocess.run(["cargo", "build", "--release", "--offline", "-q"], cwd=folder, check=True)
    return str(Path(folder, "target/release/baseline"))


def seconds(program, folder, sent):
    started = time.monotonic()
    ended = subprocess.run([program, "run"], cwd=folder, input=sent, capture_output=True, check=True)
    return time.monotonic() - started, ended.stdout


def rate(program, folder, document, reply):
    """Configurations a second, each answered so."""
    for file in ("office-data/journal", "office-data/check.0", "office-data/check.1"):
        Path(folder, file).unlink(missing_ok=True)
    subprocess.run([program, "init"], cwd=folder, capture_output=True, check=True)
    empty, _ = seconds(program, folder, b"PUT /buckets/logs HTTP/1.1\r\n\r\n")
    head = b"PUT /buckets/logs/lifecycle HTTP/1.1\r\nContent-Length: %d\r\n\r\n" % len(document)
    taken, said = seconds(program, folder, (head + document) * TURNS)
    if said.count(reply) != TURNS:
        sys.exit(f"rules.py: {said[-300:]!r}")
    return TURNS / (taken - empty)


def main(program, rounds, below):
    kept, flawed = configuration(365), configuration(90)
    with tempfile.TemporaryDirectory(dir=below) as folder, tempfile.TemporaryDirectory() as work:
        baseline = build(work)
        Path(folder, "document").write_bytes(flawed)
        keeps, checks, theirs = [], [], []
        for _ in range(rounds):
            keeps.append(rate(program, folder, kept, b'{"rules":1000}'))
            checks.append(rate(program, folder, flawed, b'{"error":"ExpiresTooSoon","number":29,"rule":1000}'))
            ended = subprocess.run([baseline, str(Path(folder, "document")), str(TURNS)], capture_output=True, text=True, check=True)
            theirs.append(TURNS / float(ended.stdout.split()[0]))
    keep, check, there = (statistics.median(it) for it in (keeps, checks, theirs))
    print(f"bytes {len(flawed)} rules 1000 serde_json_per_second {there:.0f} checked_per_second {check:.0f} ratio {check / there:.2f}"
          f" kept_per_second {keep:.0f} ratio {keep / there:.2f} rounds {rounds}")


if __name__ == "__main__":
    main(sys.argv[1], int(sys.argv[2]) if len(sys.argv) > 2 else 7, sys.argv[3] if len(sys.argv) > 3 else "/dev/shm")
