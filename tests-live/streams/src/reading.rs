//! A second reading of a stream of requests, written from docs/FORMATS.md over the real `httparse` and `serde_json`.
//!
//! A refusal that the bytes alone decide has its exact reply. What the records decide is not known here: of such a request the
//! reading says which replies it may have.

use httparse::{Error, Header, Request, Status};
use serde_json::{Map, Value};
use std::mem::MaybeUninit;

const HEAD_LIMIT: usize = 8_192;
const BODY_LIMIT: usize = 1_048_576;
const SIZE_LIMIT: u64 = 5_497_558_138_880;
const CLASSES: [&str; 6] = ["STANDARD", "STANDARD_IA", "ONEZONE_IA", "GLACIER_IR", "GLACIER", "DEEP_ARCHIVE"];

/// What is to be answered to one message.
#[derive(Debug, Clone, PartialEq)]
pub enum Expected {
    /// Exactly these bytes.
    Exact(Vec<u8>),
    /// A reply of success with this status, if there can be one, or a refusal with one of these numbers.
    Among { success: Option<u16>, numbers: Vec<u16> },
}

struct Refusal {
    status: u16,
    body: String,
}

type Read<T> = Result<T, Refusal>;

fn phrase(status: u16) -> &'static str {
    match status {
        400 => "Bad Request",
        404 => "Not Found",
        405 => "Method Not Allowed",
        409 => "Conflict",
        413 => "Payload Too Large",
        431 => "Request Header Fields Too Large",
        501 => "Not Implemented",
        _ => unreachable!("no refusal of a message has status {status}"),
    }
}

fn refusal<T>(status: u16, name: &str, number: u16) -> Read<T> {
    Err(Refusal { status, body: format!("{{\"error\":\"{name}\",\"number\":{number}}}") })
}

fn named<T>(status: u16, name: &str, key: &str, value: &str, number: u16) -> Read<T> {
    let quoted = quoted(value);
    let body = match key {
        "name" => format!("{{\"error\":\"{name}\",\"name\":{quoted},\"number\":{number}}}"),
        _ => format!("{{\"error\":\"{name}\",\"{key}\":{quoted},\"number\":{number}}}"),
    };
    Err(Refusal { status, body })
}

fn quoted(text: &str) -> String {
    let mut out = String::from("\"");
    for c in text.chars() {
        match c {
            '"' => out.push_str("\\\""),
            '\\' => out.push_str("\\\\"),
            '\u{8}' => out.push_str("\\b"),
            '\t' => out.push_str("\\t"),
            '\n' => out.push_str("\\n"),
            '\u{c}' => out.push_str("\\f"),
            '\r' => out.push_str("\\r"),
            c if c < ' ' => out.push_str(&format!("\\u00{:02x}", c as u32)),
            c => out.push(c),
        }
    }
    out.push('"');
    out
}

fn exact(refusal: &Refusal) -> Expected {
    let Refusal { status, body } = refusal;
    let head = format!("HTTP/1.1 {status} {}\r\ncontent-type: application/json\r\ncontent-length: {}\r\n\r\n", phrase(*status), body.len());
    Expected::Exact([head.as_bytes(), body.as_bytes()].concat())
}

// What the records may answer to any command or query: Full, ClockEnd and JournalFull among it.
const ON_BUCKET: &[u16] = &[80, 81, 90];
const ON_RULES: &[u16] = &[2, 3, 20, 21, 22, 23, 24, 25, 26, 27, 28, 29, 30, 31, 32, 33, 34, 41, 42, 43, 81, 90];
const ON_TARIFF: &[u16] = &[70, 71, 72, 73, 74, 75, 90];
const ON_VERSIONING: &[u16] = &[81, 83];
const ON_QUERY: &[u16] = &[50, 60, 81, 82];
const ON_KEY: &[u16] = &[50, 51, 52, 81, 90];
const ON_UPLOAD: &[u16] = &[60, 61, 62, 81, 90];
const ON_MONTH: &[u16] = &[84, 85, 86, 87, 88];
const ON_TARIFF_QUERY: &[u16] = &[88];

// What the records alone decide of a configuration and of a tariff: a message that is refused for its token has none of these.
const BY_RECORDS: &[u16] = &[80, 81, 90];

fn among(success: u16, numbers: &'static [u16]) -> Read<Expected> {
    Ok(Expected::Among { success: Some(success), numbers: numbers.to_vec() })
}

/// The values of the fields Office-Token of a head.
type Tokens = Vec<Vec<u8>>;

fn is_token(text: &[u8]) -> bool {
    (1..=64).contains(&text.len()) && text.iter().all(|&c| (0x21..=0x7e).contains(&c))
}

/// What a token changes at a message that gives a command, by its method and target: one that is none is refused, a good one may be
/// kept with another command, and a configuration, a tariff and an action take none.
fn with_tokens(tokens: &Tokens, method: &str, target: &str, meant: Expected) -> Expected {
    let Expected::Among { success, mut numbers } = meant else { return meant };
    if method == "GET" || tokens.is_empty() {
        return Expected::Among { success, numbers };
    }
    let is_good = tokens.len() == 1 && is_token(&tokens[0]);
    let word = target.split('/').nth(3).unwrap_or("");
    let reads_text = target == "/tariff" || (word == "lifecycle" && method == "PUT");
    match (is_good, reads_text || word == "act") {
        (true, false) => {
            numbers.push(92);
            Expected::Among { success, numbers }
        }
        // The text of a configuration or a tariff may be refused first.
        (_, true) if reads_text => {
            numbers.retain(|it| !BY_RECORDS.contains(it));
            numbers.push(if is_good { 129 } else { 128 });
            Expected::Among { success: None, numbers }
        }
        (true, true) => say(400, "TokenNotServed", 129),
        (false, _) => say(400, "BadToken", 128),
    }
}

/// A refusal that has its name and number alone.
fn say(status: u16, name: &str, number: u16) -> Expected {
    exact(&Refusal { status, body: format!("{{\"error\":\"{name}\",\"number\":{number}}}") })
}

fn bucket(text: &str) -> Read<()> {
    let is_inner = |c: u8| c.is_ascii_lowercase() || c.is_ascii_digit() || c == b'.' || c == b'-';
    let is_end = |c: u8| c.is_ascii_lowercase() || c.is_ascii_digit();
    let bytes = text.as_bytes();
    let holds = (3..=63).contains(&text.chars().count()) && bytes.iter().all(|&c| is_inner(c)) && is_end(bytes[0]) && is_end(bytes[bytes.len() - 1]);
    if holds { Ok(()) } else { refusal(400, "BadBucketName", 10) }
}

fn key(text: &str) -> Read<()> {
    let hex = |c: u8| (c as char).to_digit(16).map(|d| d as u8);
    let bytes = text.as_bytes();
    let (mut out, mut at) = (Vec::new(), 0);
    while at < bytes.len() {
        let pair = (bytes[at] == b'%' && at + 2 < bytes.len()).then(|| (hex(bytes[at + 1]), hex(bytes[at + 2])));
        if let Some((Some(high), Some(low))) = pair {
            out.push(high * 16 + low);
            at += 3;
        } else {
            out.push(bytes[at]);
            at += 1;
        }
    }
    let holds = (1..=1_024).contains(&out.len()) && std::str::from_utf8(&out).is_ok();
    if holds { Ok(()) } else { refusal(400, "BadKey", 11) }
}

/// Digits from 1 to 2^64 - 1 without a leading zero.
fn is_number(text: &str) -> bool {
    !text.is_empty() && text.bytes().all(|c| c.is_ascii_digit()) && !text.starts_with('0') && text.parse::<u64>().is_ok()
}

fn version(text: &str) -> Read<()> {
    if text == "null" || is_number(text) { Ok(()) } else { refusal(404, "NoSuchVersion", 51) }
}

fn upload(text: &str) -> Read<()> {
    if is_number(text) { Ok(()) } else { refusal(404, "NoSuchUpload", 60) }
}

fn part(text: &str) -> Read<()> {
    let holds = (1..=5).contains(&text.len()) && text.bytes().all(|c| c.is_ascii_digit());
    if holds { Ok(()) } else { refusal(409, "BadPart", 61) }
}

fn month(text: &str) -> Read<()> {
    let bytes = text.as_bytes();
    let digits = |from: usize, to: usize| bytes[from..to].iter().all(|c| c.is_ascii_digit());
    let holds = bytes.len() == 7 && digits(0, 4) && bytes[4] == b'-' && digits(5, 7)
        && (1970..=2099).contains(&text[..4].parse::<u32>().unwrap_or(0)) && (1..=12).contains(&text[5..].parse::<u32>().unwrap_or(0));
    if holds { Ok(()) } else { refusal(400, "NotAMonth", 4) }
}

fn bad_body<T>(field: &str) -> Read<T> {
    named(400, "BadBody", "field", field, 123)
}

fn object(body: &[u8], fields: &[&str]) -> Read<Map<String, Value>> {
    let body = if body.is_empty() { b"{}" } else { body };
    let Ok(Value::Object(members)) = serde_json::from_slice(body) else {
        return bad_body("");
    };
    let mut names: Vec<&String> = members.keys().collect();
    names.sort();
    match names.into_iter().find(|it| !fields.contains(&it.as_str())) {
        Some(other) => bad_body(other),
        None => Ok(members),
    }
}

fn body_of(body: &[u8], fields: &[&str]) -> Read<()> {
    let members = object(body, fields)?;
    let has = |name: &str| fields.contains(&name);
    if has("Status") && !matches!(members.get("Status").and_then(Value::as_str), Some("Enabled" | "Suspended")) {
        return bad_body("Status");
    }
    let size = members.get("size").and_then(Value::as_u64);
    if has("size") && size.is_none() {
        return bad_body("size");
    }
    if has("class") && members.get("class").is_some_and(|it| !it.is_string()) {
        return bad_body("class");
    }
    let tags = members.get("tags");
    if has("tags") && (tags.is_none() && fields.len() == 1 || tags.is_some_and(|it| !are_texts(it))) {
        return bad_body("tags");
    }
    if fields.contains(&"class") && size.is_some_and(|it| it > SIZE_LIMIT) {
        return refusal(400, "BadSize", 13);
    }
    if let Some(class) = members.get("class").and_then(Value::as_str).filter(|it| !CLASSES.contains(it)) {
        return named(400, "UnsupportedClass", "name", class, 43);
    }
    match tags.and_then(Value::as_object) {
        Some(tags) if !are_tags(tags) => refusal(400, "BadTags", 12),
        _ => Ok(()),
    }
}

fn are_texts(tags: &Value) -> bool {
    tags.as_object().is_some_and(|it| it.values().all(Value::is_string))
}

fn are_tags(tags: &Map<String, Value>) -> bool {
    let is_tag = |key: &str, value: &str| (1..=128).contains(&key.chars().count()) && value.chars().count() <= 256;
    tags.len() <= 10 && tags.iter().all(|(key, value)| is_tag(key, value.as_str().unwrap_or("")))
}

/// A configuration: only what its outermost object decides is known exactly.
fn rules(body: &[u8]) -> Read<Expected> {
    let Ok(value) = serde_json::from_slice::<Value>(body) else {
        return refusal(400, "NotJson", 40);
    };
    let Value::Object(members) = value else {
        return named(400, "WrongShape", "field", "", 42);
    };
    let mut names: Vec<&String> = members.keys().collect();
    names.sort();
    if let Some(other) = names.into_iter().find(|it| !["Rules", "TransitionDefaultMinimumObjectSize"].contains(&it.as_str())) {
        return named(400, "UnknownField", "name", other, 41);
    }
    if !members.get("Rules").is_some_and(Value::is_array) {
        return named(400, "WrongShape", "field", "Rules", 42);
    }
    among(200, ON_RULES)
}

/// A tariff: only that of an empty document is known exactly.
fn tariff(body: &[u8]) -> Read<Expected> {
    if body.iter().all(|c| matches!(c, b' ' | b'\n' | b'\t')) {
        let body = String::from("{\"class\":\"STANDARD\",\"error\":\"MissingClass\",\"number\":71,\"table\":\"storage\"}");
        return Err(Refusal { status: 400, body });
    }
    among(200, ON_TARIFF)
}

/// What a whole message asks: its route, its method, the parts of its path from left to right, and then its body.
fn meant(method: &str, target: &str, body: &[u8]) -> Read<Expected> {
    let no_route = || refusal(404, "NoRoute", 121);
    let no_method = || refusal(405, "BadMethod", 122);
    if !target.starts_with('/') || target.contains('?') {
        return no_route();
    }
    let words: Vec<&str> = target[1..].split('/').collect();
    let rest_from = |n: usize| words[n..].join("/");
    match words.as_slice() {
        ["tariff"] => match method {
            "PUT" => tariff(body),
            "GET" => among(200, ON_TARIFF_QUERY),
            _ => no_method(),
        },
        ["months", text, word @ ("close" | "report")] if !text.is_empty() => match (*word, method) {
            ("close", "POST") | ("report", "GET") => month(text).and_then(|()| among(200, ON_MONTH)),
            _ => no_method(),
        },
        ["buckets", name] if !name.is_empty() => match method {
            "PUT" => bucket(name).and_then(|()| among(201, ON_BUCKET)),
            "GET" => bucket(name).and_then(|()| among(200, ON_QUERY)),
            _ => no_method(),
        },
        ["buckets", name, word, ..] if !name.is_empty() => {
            let served: &[&str] = match (*word, words.len()) {
                ("versioning", 3) => &["PUT"],
                ("lifecycle", 3) => &["PUT", "GET", "DELETE"],
                ("objects", 4..) if !rest_from(3).is_empty() => &["PUT", "GET", "DELETE"],
                ("versions", 5..) if !words[3].is_empty() && !rest_from(4).is_empty() => &["DELETE"],
                ("tags", 5..) if !words[3].is_empty() && !rest_from(4).is_empty() => &["PUT"],
                ("uploads", 4..) if !rest_from(3).is_empty() => &["POST"],
                ("upload", 4) if !words[3].is_empty() => &["GET", "POST", "DELETE"],
                ("parts", 5) if !words[3].is_empty() && !words[4].is_empty() => &["PUT"],
                ("act", 3) => &["POST"],
                ("due", 3) => &["GET"],
                ("meters", 4) if !words[3].is_empty() => &["GET"],
                _ => return no_route(),
            };
            if !served.contains(&method) {
                return no_method();
            }
            bucket(name)?;
            on_bucket(word, method, &words, body)
        }
        _ => no_route(),
    }
}

fn on_bucket(word: &str, method: &str, words: &[&str], body: &[u8]) -> Read<Expected> {
    match (word, method) {
        ("versioning", _) => body_of(body, &["Status"]).and_then(|()| among(200, ON_VERSIONING)),
        ("lifecycle", "PUT") => rules(body),
        ("lifecycle", _) => among(200, ON_QUERY),
        ("objects", _) => {
            key(&words[3..].join("/"))?;
            if method != "PUT" {
                return among(200, ON_KEY);
            }
            body_of(body, &["size", "class", "tags"]).and_then(|()| among(201, ON_KEY))
        }
        ("versions", _) => {
            version(words[3])?;
            key(&words[4..].join("/")).and_then(|()| among(200, ON_KEY))
        }
        ("tags", _) => {
            version(words[3])?;
            key(&words[4..].join("/"))?;
            body_of(body, &["tags"]).and_then(|()| among(200, ON_KEY))
        }
        ("uploads", _) => {
            key(&words[3..].join("/"))?;
            body_of(body, &["class", "tags"]).and_then(|()| among(201, ON_UPLOAD))
        }
        ("upload", _) => upload(words[3]).and_then(|()| among(if method == "POST" { 201 } else { 200 }, ON_UPLOAD)),
        ("parts", _) => {
            upload(words[3])?;
            part(words[4])?;
            body_of(body, &["size"]).and_then(|()| among(200, ON_UPLOAD))
        }
        ("meters", _) => month(words[3]).and_then(|()| among(200, ON_QUERY)),
        _ => among(200, ON_QUERY),
    }
}

enum Head {
    /// No continuation makes it a head.
    Broken,
    Partial,
    Whole { length: usize, method: String, target: String, framing: Read<usize>, tokens: Tokens, is_last: bool },
}

/// The values of the fields of a name, whose letters may be of either case.
fn values<'a>(headers: &[Header<'a>], name: &str) -> Vec<&'a [u8]> {
    headers.iter().filter(|it| it.name.eq_ignore_ascii_case(name)).map(|it| it.value).collect()
}

fn framing(headers: &[Header]) -> Read<usize> {
    if !values(headers, "transfer-encoding").is_empty() {
        return refusal(501, "ChunkedBody", 125);
    }
    let digits = match values(headers, "content-length").as_slice() {
        [] => return Ok(0),
        [one] if !one.is_empty() && one.iter().all(u8::is_ascii_digit) => one.to_vec(),
        _ => return refusal(400, "BadHead", 120),
    };
    let length = digits.iter().fold(0_usize, |sum, c| (sum * 10 + usize::from(c - b'0')).min(BODY_LIMIT + 1));
    if length > BODY_LIMIT { refusal(413, "BodyTooLarge", 124) } else { Ok(length) }
}

/// Where the method stands, and the request target behind it, up to what no target has.
fn request_line(front: &[u8]) -> (std::ops::Range<usize>, std::ops::Range<usize>) {
    let mut from = 0;
    while front[from..].starts_with(b"\r\n") || front[from..].starts_with(b"\n") {
        from += if front[from] == b'\n' { 1 } else { 2 };
    }
    // A CR alone may be the first half of an empty line.
    if &front[from..] == b"\r" {
        return (front.len()..front.len(), front.len()..front.len());
    }
    let space = front[from..].iter().position(|&c| c == b' ').map_or(front.len(), |n| from + n);
    let start = (space + 1).min(front.len());
    let length = front[start..].iter().position(|&c| c <= b' ' || c == 0x7f).unwrap_or(front.len() - start);
    (from..space, start..start + length)
}

/// A character of a token (RFC 9110, "Tokens").
fn is_in_token(c: u8) -> bool {
    c.is_ascii_alphanumeric() || b"!#$%&'*+-.^_`|~".contains(&c)
}

/// Reads a head with room for so many fields, or None if it has more.
///
/// The program goes by httparse 1.10, and the distribution has 1.8, which is wider in a method (any visible byte, or none) and narrower
/// in a target (no `<`, no `>`, ASCII alone; 1.10 takes all visible bytes, and looks for UTF-8 once the target has ended). So these two
/// are read here, and 1.8 is given a target of letters in their place.
fn head_with(front: &[u8], fields: usize) -> Option<Head> {
    let (method, place) = request_line(front);
    let target = std::str::from_utf8(&front[place.clone()]);
    let no_method = method.is_empty() && method.end < front.len();
    if no_method || !front[method].iter().all(|&c| is_in_token(c)) || target.is_err() && front.get(place.end) == Some(&b' ') {
        return Some(Head::Broken);
    }
    let mut ascii = front.to_vec();
    ascii[place].fill(b'u');
    let mut room = vec![MaybeUninit::<Header>::uninit(); fields];
    let mut request = Request::new(&mut []);
    Some(match request.parse_with_uninit_headers(&ascii, &mut room) {
        Err(Error::TooManyHeaders) => return None,
        Err(_) => Head::Broken,
        Ok(Status::Partial) => Head::Partial,
        Ok(Status::Complete(length)) => {
            let closes = |it: &Header| it.name.eq_ignore_ascii_case("connection") && it.value.eq_ignore_ascii_case(b"close");
            Head::Whole {
                length,
                method: request.method.unwrap_or("").to_owned(),
                target: target.unwrap_or("").to_owned(),
                framing: framing(request.headers),
                tokens: values(request.headers, "office-token").into_iter().map(<[u8]>::to_vec).collect(),
                is_last: request.version == Some(0) || request.headers.iter().any(closes),
            }
        }
    })
}

// A field takes three bytes at least, so 4,096 fields never fit into a head.
fn head(front: &[u8]) -> Head {
    head_with(front, 64).or_else(|| head_with(front, 4_096)).unwrap_or(Head::Broken)
}

/// What is answered to a stream, in order, up to its end or to the last message of its session.
pub fn answers(stream: &[u8]) -> Vec<Expected> {
    let (mut rest, mut found) = (stream, Vec::new());
    while !rest.is_empty() {
        let (length, method, target, framing, tokens, is_last) = match head(&rest[..rest.len().min(HEAD_LIMIT)]) {
            Head::Broken => {
                found.push(say(400, "BadHead", 120));
                break;
            }
            Head::Partial => {
                found.push(if rest.len() >= HEAD_LIMIT { say(431, "HeadTooLarge", 126) } else { say(400, "CutShort", 127) });
                break;
            }
            Head::Whole { length, method, target, framing, tokens, is_last } => (length, method, target, framing, tokens, is_last),
        };
        let body_length = match framing {
            Ok(it) => it,
            Err(refusal) => {
                found.push(exact(&refusal));
                break;
            }
        };
        rest = &rest[length..];
        if rest.len() < body_length {
            found.push(say(400, "CutShort", 127));
            break;
        }
        let (body, behind) = rest.split_at(body_length);
        rest = behind;
        let one = meant(&method, &target, body).map(|it| with_tokens(&tokens, &method, &target, it));
        found.push(one.unwrap_or_else(|refusal| exact(&refusal)));
        if is_last {
            break;
        }
    }
    found
}
