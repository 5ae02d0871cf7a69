//! Draws random byte streams: requests that are right, nearly right, cut, oversized or mutated.

/// A source of pseudo-random numbers (splitmix64), the same on every machine.
pub struct Draws(u64);

impl Draws {
    pub fn new(seed: u64) -> Self {
        Self(seed)
    }

    pub fn next(&mut self) -> u64 {
        self.0 = self.0.wrapping_add(0x9e37_79b9_7f4a_7c15);
        let mut z = self.0;
        z = (z ^ (z >> 30)).wrapping_mul(0xbf58_476d_1ce4_e5b9);
        z = (z ^ (z >> 27)).wrapping_mul(0x94d0_49bb_1331_11eb);
        z ^ (z >> 31)
    }

    pub fn below(&mut self, n: usize) -> usize {
        (self.next() % n as u64) as usize
    }

    /// True once in `n` draws.
    pub fn one_in(&mut self, n: usize) -> bool {
        self.below(n) == 0
    }

    fn of<'a>(&mut self, list: &[&'a [u8]]) -> &'a [u8] {
        list[self.below(list.len())]
    }

    /// One of the odd ones once in `n` draws, else one of the usual.
    fn mostly<'a>(&mut self, usual: &[&'a [u8]], odd: &[&'a [u8]], n: usize) -> &'a [u8] {
        if self.one_in(n) { self.of(odd) } else { self.of(usual) }
    }
}

const METHODS: &[&[u8]] = &[b"GET", b"PUT", b"POST", b"DELETE"];
const ODD_METHODS: &[&[u8]] = &[b"HEAD", b"PATCH", b"get", b"OPTIONS", b"P", b"M-SEARCH", b"", b"PU\x01T", b"G\xc3\xa9T"];
const BUCKETS: &[&[u8]] = &[
    b"logs", b"logs", b"logs", b"none", b"abc", b"ab", b"a.b-c", b"-ab", b"ab-", b".ab", b"Logs", b"l%6fgs", b"lo_gs", b"",
    b"a23456789012345678901234567890123456789012345678901234567890123", b"a234567890123456789012345678901234567890123456789012345678901234",
    b"l\xc3\xb6gs", b"\xff\xff\xff", b"a..b",
];
const KEYS: &[&[u8]] = &[
    b"a", b"a/b", b"/", b"", b"%2F", b"%", b"%4", b"%zz", b"a%20b", b"a+b", b"%C3%A9", b"%C3", b"%FF", b"\xc3\xa9", b"\xff", b"%00", b"a//b", b"..", b"%e2%82%ac",
    b"%ED%A0%80", b"%F4%90%80%80", b"a%2", b"%25", b"%2f%2F",
];
const IDS: &[&[u8]] = &[
    b"1", b"2", b"null", b"0", b"01", b"+1", b"-1", b"18446744073709551615", b"18446744073709551616", b"Null", b"", b"1a", b"%31", b"00000", b"1 ",
    b"99999999999999999999999999",
];
const PARTS: &[&[u8]] = &[b"1", b"0", b"00001", b"000001", b"10000", b"10001", b"99999", b"100000", b"+1", b"a", b"", b"-1", b"1.0"];
const MONTHS: &[&[u8]] = &[
    b"2024-01", b"1970-01", b"2099-12", b"2100-01", b"1969-12", b"2024-13", b"2024-00", b"2024-1", b"24-01", b"2024/01", b"", b"02024-01", b"2024-01 ",
    b"\xd9\xa2024-01",
];
const WORDS: &[&[u8]] = &[
    b"versioning", b"lifecycle", b"objects", b"versions", b"tags", b"uploads", b"upload", b"parts", b"act", b"due", b"meters", b"object", b"", b"Act", b"keys",
];
const TIERED: &[u8] = b"from = \"2024-03\"\n[storage]\nSTANDARD = [{ upto = 1, price = 23000 }, { price = 20000 }]\nSTANDARD_IA = 1\nONEZONE_IA = 1\n\
GLACIER_IR = 1\nGLACIER = 1\nDEEP_ARCHIVE = 1\n[transition]\nSTANDARD_IA = 1\nONEZONE_IA = 1\nGLACIER_IR = 1\nGLACIER = 1\nDEEP_ARCHIVE = 1\n";
const BODIES: &[&[u8]] = &[
    b"", b"{}", b"{\"size\":5}", b"{\"size\":5,\"class\":\"STANDARD\"}", b"{\"size\":5,\"class\":\"GLACIER\",\"tags\":{\"a\":\"b\"}}", b"{\"size\":-1}", b"{\"size\":1.0}",
    b"{\"size\":1e3}", b"{\"size\":-0}", b"{\"size\":18446744073709551615}", b"{\"size\":18446744073709551616}", b"{\"size\":5497558138880}", b"{\"size\":5497558138881}",
    b"{\"size\":5368709120}", b"{\"size\":\"5\"}", b"{\"size\":null}", b"{\"size\":5,\"size\":\"x\"}", b"{\"size\":\"x\",\"size\":5}", b"{\"size\":5,\"class\":\"COLD\"}",
    b"{\"size\":5,\"class\":7}", b"{\"size\":5,\"class\":null}", b"{\"size\":5,\"tags\":[]}", b"{\"size\":5,\"tags\":{\"a\":1}}", b"{\"size\":5,\"tags\":{\"\":\"x\"}}",
    b"{\"size\":5,\"zeta\":1,\"alpha\":2}", b"{\"alpha\":1}", b"{\"Status\":\"Enabled\"}", b"{\"Status\":\"Suspended\"}", b"{\"Status\":\"enabled\"}", b"{\"Status\":1}",
    b"{\"Status\":\"Enabled\",\"X\":1}", b"{\"tags\":{}}", b"{\"tags\":{\"a\":\"b\",\"c\":\"d\"}}", b"{\"tags\":null}", b"{\"class\":\"DEEP_ARCHIVE\"}", b"{\"class\":\"STANDARD_IA\",\"tags\":{}}",
    TIERED, b"from = \"2024-13\"\n", b"[storage]\nSTANDARD = []\n", b"[storage]\nSTANDARD = [{ upto = 5, price = 1 }, { upto = 5, price = 1 }, { price = 1 }]\n",
    b"[]", b"5", b"\"x\"", b"null", b"true", b"{", b"{\"size\":5} ", b" {\"size\":5}", b"\xef\xbb\xbf{}", b"{\"size\":5}x", b"{\"a\\ud800\":1}", b"{\"size\":1e999}", b"\xff",
    b"{\"size\":5,}", b"{'size':5}", b"{\"size\":05}", b"{\"s\\u0069ze\":5}", b"{\"size\":5,\"tags\":{\"a\":\"b\",\"a\":\"c\"}}", b"{\"size\": 0 }", b"\n", b" ",
    b"{\"tags\":{\"1\":\"\",\"2\":\"\",\"3\":\"\",\"4\":\"\",\"5\":\"\",\"6\":\"\",\"7\":\"\",\"8\":\"\",\"9\":\"\",\"10\":\"\",\"11\":\"\"}}",
    b"{\"tags\":{\"1\":\"\",\"2\":\"\",\"3\":\"\",\"4\":\"\",\"5\":\"\",\"6\":\"\",\"7\":\"\",\"8\":\"\",\"9\":\"\",\"10\":\"\"}}",
];
const FIELDS: &[&[u8]] = &[
    b"Host: x", b"host:x", b"Accept: */*", b"Expect: 100-continue", b"X-Y:", b"Connection: keep-alive", b"Office-Token: t1", b"office-TOKEN:t2",
];
const ODD_FIELDS: &[&[u8]] = &[
    b"Connection: close", b"connection: CLOSE", b"Connection: close, x",
    b"Connection:  close ", b"Transfer-Encoding: chunked", b"transfer-encoding: identity", b"TRANSFER-ENCODING:", b"Content-Length: 0", b"Content_Length: 7", b"Content-Length : 3",
    b"Content-Length: +5", b"Content-Length: -1", b"Content-Length: 1048577", b"Content-Length: 1048576", b"Content-Length:", b"Content-Length: 5, 5", b"Content-Length: 0x5",
    b"Content-Length: 99999999999999999999999999999999", b"Content-Length: 0000000000000000000000000000000000000000", b": x", b"A B: c", b"X: \x00", b"X: \x7f", b"X: \x80\xff", b"X:\ty", b" folded",
    b"X\x01: y", b"Office-Token: t1", b"OFFICE-TOKEN:", b"Office-Token: a b", b"Office-Token: \x80", b"Office-Token: \t!~\t ", b"Office-Token: a\tb",
    b"Office-Token: a234567890123456789012345678901234567890123456789012345678901234", b"Office_Token: a b", b"Office-Tokens: a b",
    b"Office-Token: a2345678901234567890123456789012345678901234567890123456789012345", b"Content-Length:\t2", b"Content-Length: 2\t", b"(x): y",
];
const ENDS: &[&[u8]] = &[b"\r\n"];
const ODD_ENDS: &[&[u8]] = &[b"\n", b"\n", b"\n", b"\r", b"\r\r\n", b""];
const VERSIONS: &[&[u8]] = &[b"HTTP/1.1"];
const ODD_VERSIONS: &[&[u8]] = &[b"HTTP/1.0", b"HTTP/1.0", b"HTTP/1.2", b"HTTP/2.0", b"http/1.1", b"HTTP/1.1 ", b"HTTP/1", b""];

fn push_target(draws: &mut Draws, out: &mut Vec<u8>) {
    match draws.below(24) {
        0 => out.extend(b"/tariff"),
        1 | 2 => {
            out.extend(b"/months/");
            out.extend(draws.of(MONTHS));
            out.extend(draws.of(&[b"/close", b"/report", b"/report", b"", b"/x", b"/report/"]));
        }
        3 => out.extend(draws.of(&[b"/", b"*", b"x", b"http://x/", b"/buckets", b"/buckets/", b"/?", b"/tariff?", b"/tariff/", b"//", b"/bucket/logs", b"/Buckets/logs"])),
        4..=7 => {
            out.extend(b"/buckets/");
            out.extend(draws.of(BUCKETS));
        }
        _ => {
            out.extend(b"/buckets/");
            out.extend(draws.of(BUCKETS));
            out.push(b'/');
            let word = draws.of(WORDS);
            out.extend(word);
            let rest: &[&[u8]] = match word {
                b"objects" | b"uploads" => &[KEYS[draws.below(KEYS.len())]],
                b"versions" | b"tags" => &[IDS[draws.below(IDS.len())], KEYS[draws.below(KEYS.len())]],
                b"upload" => &[IDS[draws.below(IDS.len())]],
                b"parts" => &[IDS[draws.below(IDS.len())], PARTS[draws.below(PARTS.len())]],
                b"meters" => &[MONTHS[draws.below(MONTHS.len())]],
                _ if draws.one_in(8) => &[b"x"],
                _ => &[],
            };
            for part in rest {
                out.push(b'/');
                out.extend(*part);
            }
            if draws.one_in(40) {
                out.extend(draws.of(&[b"/", b"?x=1", b"#x", b"?"]));
            }
        }
    }
}

fn push_end(draws: &mut Draws, out: &mut Vec<u8>) {
    out.extend(draws.mostly(ENDS, ODD_ENDS, 40));
}

fn push_message(draws: &mut Draws, out: &mut Vec<u8>) {
    for _ in 0..draws.below(20).saturating_sub(17) {
        out.extend(draws.of(&[b"\r\n", b"\n"]));
    }
    out.extend(draws.mostly(METHODS, ODD_METHODS, 20));
    out.extend(draws.mostly(&[b" "], &[b"  ", b"\t", b""], 100));
    push_target(draws, out);
    out.extend(draws.mostly(&[b" "], &[b"  ", b"\t", b""], 100));
    out.extend(draws.mostly(VERSIONS, ODD_VERSIONS, 30));
    push_end(draws, out);
    let body = draws.of(BODIES);
    if draws.one_in(400) {
        out.extend(b"X: ");
        let filler = 7_900 + draws.below(400);
        out.resize(out.len() + filler, b'a');
        out.extend(b"\r\n");
    }
    for _ in 0..draws.below(4) {
        out.extend(draws.mostly(FIELDS, ODD_FIELDS, 15));
        push_end(draws, out);
    }
    // A token that few other messages have, so that more commands are done than refused for theirs.
    if draws.one_in(8) {
        out.extend(format!("Office-Token: {:x}", draws.next() & 0xf_ffff).as_bytes());
        push_end(draws, out);
    }
    if !body.is_empty() || draws.one_in(10) {
        let near = match draws.below(60) {
            0 => body.len() + 1,
            1 => body.len().saturating_sub(1),
            _ => body.len(),
        };
        let zeros = if draws.one_in(10) { "000" } else { "" };
        out.extend(format!("Content-Length: {zeros}{near}").as_bytes());
        push_end(draws, out);
    }
    push_end(draws, out);
    out.extend(body);
}

fn mutate(draws: &mut Draws, stream: &mut Vec<u8>) {
    if stream.is_empty() {
        return;
    }
    let at = draws.below(stream.len());
    match draws.below(5) {
        0 => stream[at] = draws.next() as u8,
        1 => stream.insert(at, draws.of(&[b"\0", b" ", b"\r", b"\n", b"\t", b"\xff", b":", b"/", b"%", b"?", b"\x01", b"0"])[0]),
        2 => {
            stream.remove(at);
        }
        3 => stream.truncate(at),
        _ => {
            let end = (at + 1 + draws.below(40)).min(stream.len());
            let again = stream[at..end].to_vec();
            stream.splice(at..at, again);
        }
    }
}

/// Draws one stream.
pub fn stream(draws: &mut Draws) -> Vec<u8> {
    let mut out = Vec::new();
    match draws.below(400) {
        0 => {
            out.extend(b"GET /");
            let length = 8_180 + draws.below(40);
            out.resize(length, b'a');
        }
        1 => {
            let length = 8_180 + draws.below(40);
            while out.len() < length {
                out.extend(b"\r\n");
            }
        }
        2 => out.extend((0..draws.below(60)).map(|_| 0)),
        3 => {
            for _ in 0..draws.below(300) {
                out.push(draws.next() as u8);
            }
        }
        4 => {
            // a whole body of the greatest length, and one byte more
            let length = 1_048_576 + draws.below(2);
            out.extend(format!("PUT /buckets/logs HTTP/1.1\r\nContent-Length: {length}\r\n\r\n").as_bytes());
            out.resize(out.len() + length, b' ');
            out.extend(b"GET /buckets/logs HTTP/1.1\r\n\r\n");
        }
        _ => {
            for _ in 0..=draws.below(4) {
                push_message(draws, &mut out);
            }
        }
    }
    if draws.one_in(5) {
        for _ in 0..=draws.below(3) {
            mutate(draws, &mut out);
        }
    }
    out
}
