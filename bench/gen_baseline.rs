//! Baseline for `gen NUMBER COUNT` (docs/FORMATS.md, "The generator"): the in-memory work of the office in plain std Rust.
//!
//! It holds stacks, uploads and rules, keeps one due action per stack and per upload in an
//! ordered queue (`BTreeMap`), books running totals, encodes each accepted command as a journal
//! entry and appends it to a journal in memory with both gates.
//! It prints the line of `gen` on stdout and its time on stderr.
//!
//! Build and run (no dependencies):
//!     rustc --edition 2021 -C opt-level=3 -o gen_baseline gen_baseline.rs
//!     ./gen_baseline 7 100000
//! Flags after the two numbers:
//!     --record   keep a record of every disk call with its bytes, as `MemoryDisk` does
//!     --check    compare every choice with a full scan and every meter with its sum of stays (slow)
//!     --journal FILE  write the journal's bytes to FILE
//!     --replay   then open the journal again: decode each entry and apply it to a new office
//!
//! Units: moments are milliseconds since 1970-01-01 UTC, sizes are bytes, meters are byte-ms.

use std::collections::BTreeMap;
use std::rc::Rc;
use std::time::Instant;

const END: u64 = 4_102_444_800_000;
const DAY: u64 = 86_400_000;
const GEN_START: u64 = 1_704_067_200_000;
const NULL: u64 = 0;
const MAX_VERSIONS: u64 = 200_000;
const MAX_UPLOADS: u64 = 20_000;
const MAX_PARTS: u64 = 500_000;
const MAX_NAMES: u64 = 536_870_912;
const JOURNAL_LIMIT: u64 = 1_073_741_824;
const OPEN: u8 = 0xA5;

// ---------------------------------------------------------------- time and classes

/// `due(m, n)`; `None` where the result is not below END.
fn due_after(m: u64, days: u32) -> Option<u64> {
    let raw = m + u64::from(days) * DAY;
    let due = raw.div_ceil(DAY) * DAY;
    (due < END).then_some(due)
}

/// Starts of the months 1970-01 to 2099-12, and END.
struct Calendar {
    starts: Vec<u64>,
}

impl Calendar {
    fn new() -> Self {
        let mut starts = Vec::with_capacity(1561);
        let mut day = 0u64;
        for year in 1970u64..2100 {
            let leap = year % 4 == 0 && (year % 100 != 0 || year % 400 == 0);
            for month in 0..12 {
                starts.push(day * DAY);
                day += match month {
                    1 if leap => 29,
                    1 => 28,
                    3 | 5 | 8 | 10 => 30,
                    _ => 31,
                };
            }
        }
        starts.push(day * DAY);
        assert_eq!(day * DAY, END);
        Calendar { starts }
    }

    fn month_of(&self, m: u64) -> usize {
        let mut guess = ((m / DAY) * 4800 / 146_097) as usize;
        guess = guess.min(1559);
        while self.starts[guess] > m {
            guess -= 1;
        }
        while self.starts[guess + 1] <= m {
            guess += 1;
        }
        guess
    }
}

#[derive(Clone, Copy, PartialEq, Eq, PartialOrd, Ord, Debug)]
enum Class {
    Standard,
    StandardIa,
    OnezoneIa,
    GlacierIr,
    Glacier,
    DeepArchive,
}

const CLASSES: [Class; 6] = [
    Class::Standard,
    Class::StandardIa,
    Class::OnezoneIa,
    Class::GlacierIr,
    Class::Glacier,
    Class::DeepArchive,
];

fn may_go(from: Class, to: Class) -> bool {
    to > from && !(from == Class::OnezoneIa && to == Class::GlacierIr)
}

fn least_duration(class: Class) -> u64 {
    DAY * match class {
        Class::Standard => 0,
        Class::StandardIa | Class::OnezoneIa => 30,
        Class::GlacierIr | Class::Glacier => 90,
        Class::DeepArchive => 180,
    }
}

#[derive(Clone, Copy)]
struct Lines {
    class: Class,
    bytes: u64,
    standard: u64,
}

fn billed(class: Class, size: u64) -> Lines {
    match class {
        Class::Standard => Lines { class, bytes: size, standard: 0 },
        Class::StandardIa | Class::OnezoneIa | Class::GlacierIr => {
            Lines { class, bytes: size.max(131_072), standard: 0 }
        }
        Class::Glacier | Class::DeepArchive => Lines { class, bytes: size + 32_768, standard: 8_192 },
    }
}

fn marker_lines(key_bytes: u64) -> Lines {
    Lines { class: Class::Standard, bytes: key_bytes, standard: 0 }
}

fn part_lines(class: Class, size: u64) -> Lines {
    let class = if class >= Class::Glacier { Class::Standard } else { class };
    Lines { class, bytes: size, standard: 0 }
}

// ---------------------------------------------------------------- meters

#[derive(Clone, Copy, Default)]
struct Cell {
    /// bytes of the stays that open in this month, and of those that end in it
    opened: u128,
    ended: u128,
    /// the same bytes times the milliseconds from the moment to the month's end
    opened_weight: u128,
    ended_weight: u128,
    early: u128,
    moves: u64,
}

/// Running totals of one bucket: O(1) for each booking, O(months) for a reading.
struct Meters {
    rows: Vec<[Cell; 6]>,
}

impl Meters {
    fn new() -> Self {
        Meters { rows: Vec::new() }
    }

    fn row(&mut self, month: usize) -> &mut [Cell; 6] {
        if self.rows.len() <= month {
            self.rows.resize(month + 1, [Cell::default(); 6]);
        }
        &mut self.rows[month]
    }

    fn open(&mut self, cal: &Calendar, lines: &Lines, from: u64) {
        let month = cal.month_of(from);
        let left = u128::from(cal.starts[month + 1] - from);
        let row = self.row(month);
        let cell = &mut row[lines.class as usize];
        cell.opened += u128::from(lines.bytes);
        cell.opened_weight += u128::from(lines.bytes) * left;
        if lines.standard != 0 {
            row[0].opened += u128::from(lines.standard);
            row[0].opened_weight += u128::from(lines.standard) * left;
        }
    }

    fn end(&mut self, cal: &Calendar, lines: &Lines, at: u64) {
        let month = cal.month_of(at);
        let left = u128::from(cal.starts[month + 1] - at);
        let row = self.row(month);
        let cell = &mut row[lines.class as usize];
        cell.ended += u128::from(lines.bytes);
        cell.ended_weight += u128::from(lines.bytes) * left;
        if lines.standard != 0 {
            row[0].ended += u128::from(lines.standard);
            row[0].ended_weight += u128::from(lines.standard) * left;
        }
    }

    fn early(&mut self, cal: &Calendar, class: Class, bytes: u64, entered: u64, at: u64) {
        let least = least_duration(class);
        if at - entered < least {
            let missing = u128::from(entered + least - at);
            self.row(cal.month_of(at))[class as usize].early += u128::from(bytes) * missing;
        }
    }

    fn moved(&mut self, cal: &Calendar, to: Class, at: u64) {
        self.row(cal.month_of(at))[to as usize].moves += 1;
    }

    /// Byte-ms of the month up to t, for t not before any booked moment.
    fn reading(&self, cal: &Calendar, month: usize, class: usize, t: u64) -> u128 {
        let (start, end) = (cal.starts[month], cal.starts[month + 1]);
        if t <= start {
            return 0;
        }
        let mut standing = 0u128;
        for row in self.rows.iter().take(month) {
            standing = standing + row[class].opened - row[class].ended;
        }
        let mut sum = standing * u128::from(end - start);
        let mut after = standing;
        if let Some(row) = self.rows.get(month) {
            let cell = &row[class];
            sum = sum + cell.opened_weight - cell.ended_weight;
            after = after + cell.opened - cell.ended;
        }
        if t < end {
            sum -= after * u128::from(end - t);
        }
        sum
    }
}

// ---------------------------------------------------------------- records

#[derive(Clone, Copy, PartialEq, Eq)]
enum Versioning {
    Unversioned,
    Enabled,
    Suspended,
}

type Tags = Vec<(String, String)>;

enum Kind {
    Object { size: u64, class: Class, tags: Tags, entered: u64 },
    Marker,
}

struct Version {
    id: u64,
    kind: Kind,
    created: u64,
    ceased: u64,
}

/// Versions of one key, oldest first.
struct Stack {
    key: Rc<[u8]>,
    changed: u64,
    versions: std::collections::VecDeque<Version>,
    /// place in the bucket's queue, if an action is due ever
    queued: Option<(u64, u8)>,
}

struct Part {
    size: u64,
    put: u64,
}

struct Upload {
    key: Rc<[u8]>,
    class: Class,
    tags: Tags,
    started: u64,
    changed: u64,
    parts: BTreeMap<u32, Part>,
    queued: Option<(u64, u8)>,
}

enum When {
    Days(u32),
    #[allow(dead_code)]
    Date(u64),
}

struct Transition {
    when: When,
    to: Class,
}

struct Filter {
    prefix: Vec<u8>,
    tags: Tags,
    greater: Option<u64>,
    less: Option<u64>,
}

struct Rule {
    enabled: bool,
    filter: Filter,
    expiration: Option<When>,
    lone_marker: bool,
    transitions: Vec<Transition>,
    noncurrent_expiration: Option<(u32, u32)>,
    noncurrent_moves: Vec<(u32, u32, Class)>,
    abort_days: Option<u32>,
}

struct RuleSet {
    rules: Vec<Rule>,
    varies: bool,
    printed: &'static str,
}

impl Filter {
    fn matches(&self, key: &[u8], tags: &Tags, size: u64) -> bool {
        key.starts_with(&self.prefix)
            && self.greater.map_or(true, |g| size > g)
            && self.less.map_or(true, |l| size < l)
            && self.tags.iter().all(|tag| tags.contains(tag))
    }

    fn matches_marker(&self, key: &[u8]) -> bool {
        self.tags.is_empty()
            && self.greater.is_none()
            && self.less.is_none()
            && key.starts_with(&self.prefix)
    }

    fn admits(&self, varies: bool, to: Class, size: u64) -> bool {
        self.greater.is_some()
            || self.less.is_some()
            || size >= 131_072
            || (varies && to >= Class::Glacier)
    }
}

impl When {
    fn due(&self, from: u64) -> Option<u64> {
        match *self {
            When::Days(n) => due_after(from, n),
            When::Date(d) => Some(d),
        }
    }
}

const REMOVE: u8 = 0;
const TRANSITION: u8 = 1;
const MARKER: u8 = 2;
const ABORT: u8 = 3;

/// One action on a stack. The order is that of docs/LIFECYCLE.md for actions on one key.
#[derive(Clone, Copy, PartialEq, Eq, PartialOrd, Ord, Debug)]
struct Action {
    since: u64,
    kind: u8,
    /// place in the stack, counted from the oldest
    place: usize,
    /// the colder the lower: 5 minus the rank of the target
    warmth: u8,
    rule: u32,
}

struct Bucket {
    stacks: BTreeMap<Rc<[u8]>, Stack>,
    uploads: BTreeMap<u64, Upload>,
    next_version: u64,
    next_upload: u64,
    schedule: Schedule,
    books: Books,
}

/// What decides on due actions, and the ordered queue of them.
struct Schedule {
    versioning: Versioning,
    rules: Option<RuleSet>,
    rules_since: u64,
    /// the least action of each stack (upload 0) and the abort of each upload
    queue: BTreeMap<(u64, u8, Rc<[u8]>, u64), Action>,
}

/// The running totals, and with `--check` the list of stays.
struct Books {
    meters: Meters,
    stays: Option<Vec<Stay>>,
}

/// Kept with `--check` alone.
struct Stay {
    item: (Vec<u8>, u64, u32),
    lines: Lines,
    from: u64,
    to: Option<u64>,
}

fn least(best: &mut Option<Action>, action: Action) {
    if best.map_or(true, |b| action < b) {
        *best = Some(action);
    }
}

impl Schedule {
    /// The least eligible action of a stack, whenever it is due.
    ///
    /// `ceased` never falls from an older to a newer noncurrent version, so for each noncurrent
    /// action the first match from the oldest on is its least one.
    fn least_of_stack(&self, key: &[u8], stack: &Stack) -> Option<Action> {
        let set = self.rules.as_ref()?;
        let floor = stack.changed.max(self.rules_since);
        let mut best = None;
        let top = stack.versions.len() - 1;
        for (at, rule) in set.rules.iter().enumerate() {
            if !rule.enabled {
                continue;
            }
            let number = at as u32 + 1;
            let current = &stack.versions[top];
            match &current.kind {
                Kind::Object { size, class, tags, .. } => {
                    if rule.filter.matches(key, tags, *size) {
                        if let Some(due) = rule.expiration.as_ref().and_then(|w| w.due(current.created)) {
                            let kind = if self.versioning == Versioning::Unversioned { REMOVE } else { MARKER };
                            least(&mut best, Action { since: due.max(floor), kind, place: top, warmth: 0, rule: number });
                        }
                        for t in &rule.transitions {
                            if may_go(*class, t.to) && rule.filter.admits(set.varies, t.to, *size) {
                                if let Some(due) = t.when.due(current.created) {
                                    let warmth = 5 - t.to as u8;
                                    least(&mut best, Action { since: due.max(floor), kind: TRANSITION, place: top, warmth, rule: number });
                                }
                            }
                        }
                    }
                }
                Kind::Marker if top == 0 && rule.filter.matches_marker(key) => {
                    if let Some(due) = rule.expiration.as_ref().and_then(|w| w.due(current.created)) {
                        least(&mut best, Action { since: due.max(floor), kind: REMOVE, place: 0, warmth: 0, rule: number });
                    }
                    if rule.lone_marker {
                        if let Some(due) = due_after(stack.changed, 0) {
                            least(&mut best, Action { since: due.max(floor), kind: REMOVE, place: 0, warmth: 0, rule: number });
                        }
                    }
                }
                Kind::Marker => {}
            }
            if let Some((days, newer)) = rule.noncurrent_expiration {
                for place in 0..top {
                    // newer noncurrent versions stand at place + 1 .. top
                    if top - 1 - place < newer as usize {
                        break;
                    }
                    let v = &stack.versions[place];
                    let hit = match &v.kind {
                        Kind::Object { size, tags, .. } => rule.filter.matches(key, tags, *size),
                        Kind::Marker => rule.filter.matches_marker(key),
                    };
                    if hit {
                        if let Some(due) = due_after(v.ceased, days) {
                            least(&mut best, Action { since: due.max(floor), kind: REMOVE, place, warmth: 0, rule: number });
                        }
                        break;
                    }
                }
            }
            for &(days, newer, to) in &rule.noncurrent_moves {
                for place in 0..top {
                    if top - 1 - place < newer as usize {
                        break;
                    }
                    let v = &stack.versions[place];
                    if let Kind::Object { size, class, tags, .. } = &v.kind {
                        if may_go(*class, to)
                            && rule.filter.matches(key, tags, *size)
                            && rule.filter.admits(set.varies, to, *size)
                        {
                            if let Some(due) = due_after(v.ceased, days) {
                                let warmth = 5 - to as u8;
                                least(&mut best, Action { since: due.max(floor), kind: TRANSITION, place, warmth, rule: number });
                            }
                            break;
                        }
                    }
                }
            }
        }
        best
    }

    fn least_of_upload(&self, upload: &Upload) -> Option<Action> {
        let set = self.rules.as_ref()?;
        let floor = upload.changed.max(self.rules_since);
        let mut best = None;
        for (at, rule) in set.rules.iter().enumerate() {
            if let (true, Some(days)) = (rule.enabled, rule.abort_days) {
                if upload.key.starts_with(&rule.filter.prefix) {
                    if let Some(due) = due_after(upload.started, days) {
                        least(&mut best, Action { since: due.max(floor), kind: ABORT, place: 0, warmth: 0, rule: at as u32 + 1 });
                    }
                }
            }
        }
        best
    }

    /// Renews the queue's entry of one stack; an empty stack leaves the queue.
    fn renew(&mut self, stack: &mut Stack) {
        let new = if stack.versions.is_empty() { None } else { self.least_of_stack(&stack.key, stack) };
        if let Some((since, kind)) = stack.queued {
            self.queue.remove(&(since, kind, stack.key.clone(), 0));
        }
        if let Some(action) = new {
            self.queue.insert((action.since, action.kind, stack.key.clone(), 0), action);
        }
        stack.queued = new.map(|a| (a.since, a.kind));
    }

    fn renew_upload(&mut self, number: u64, upload: &mut Upload) {
        let new = self.least_of_upload(upload);
        self.drop_upload(number, upload);
        if let Some(action) = new {
            self.queue.insert((action.since, action.kind, upload.key.clone(), number), action);
        }
        upload.queued = new.map(|a| (a.since, a.kind));
    }

    fn drop_upload(&mut self, number: u64, upload: &Upload) {
        if let Some((since, kind)) = upload.queued {
            self.queue.remove(&(since, kind, upload.key.clone(), number));
        }
    }

    /// As `least_of_stack`, through every version.
    fn slow_least(&self, key: &[u8], stack: &Stack) -> Option<Action> {
        let set = self.rules.as_ref()?;
        let floor = stack.changed.max(self.rules_since);
        let top = stack.versions.len() - 1;
        let mut all = Vec::new();
        for (at, rule) in set.rules.iter().enumerate().filter(|(_, r)| r.enabled) {
            let rule_no = at as u32 + 1;
            for (place, v) in stack.versions.iter().enumerate() {
                let lone = top == 0 && matches!(v.kind, Kind::Marker);
                let hit = match &v.kind {
                    Kind::Object { size, tags, .. } => rule.filter.matches(key, tags, *size),
                    Kind::Marker => rule.filter.matches_marker(key),
                };
                if !hit {
                    continue;
                }
                let mut add = |due: Option<u64>, kind: u8, warmth: u8| {
                    if let Some(due) = due {
                        all.push(Action { since: due.max(floor), kind, place, warmth, rule: rule_no });
                    }
                };
                if place == top {
                    if let Some(w) = &rule.expiration {
                        if lone || (matches!(v.kind, Kind::Object { .. }) && self.versioning == Versioning::Unversioned) {
                            add(w.due(v.created), REMOVE, 0);
                        } else if matches!(v.kind, Kind::Object { .. }) {
                            add(w.due(v.created), MARKER, 0);
                        }
                    }
                    if lone && rule.lone_marker {
                        add(due_after(stack.changed, 0), REMOVE, 0);
                    }
                    if let Kind::Object { size, class, .. } = v.kind {
                        for t in &rule.transitions {
                            if may_go(class, t.to) && rule.filter.admits(set.varies, t.to, size) {
                                add(t.when.due(v.created), TRANSITION, 5 - t.to as u8);
                            }
                        }
                    }
                } else {
                    let newer = (top - 1 - place) as u32;
                    if let Some((days, n)) = rule.noncurrent_expiration {
                        if newer >= n {
                            add(due_after(v.ceased, days), REMOVE, 0);
                        }
                    }
                    if let Kind::Object { size, class, .. } = v.kind {
                        for &(days, n, to) in &rule.noncurrent_moves {
                            if newer >= n && may_go(class, to) && rule.filter.admits(set.varies, to, size) {
                                add(due_after(v.ceased, days), TRANSITION, 5 - to as u8);
                            }
                        }
                    }
                }
            }
        }
        all.into_iter().min()
    }
}

impl Books {
    fn open(&mut self, cal: &Calendar, item: (&[u8], u64, u32), lines: Lines, from: u64) {
        self.meters.open(cal, &lines, from);
        if let Some(stays) = &mut self.stays {
            stays.push(Stay { item: (item.0.to_vec(), item.1, item.2), lines, from, to: None });
        }
    }

    fn end(&mut self, cal: &Calendar, item: (&[u8], u64, u32), lines: Lines, at: u64) {
        self.meters.end(cal, &lines, at);
        if let Some(stays) = &mut self.stays {
            let stay = stays
                .iter_mut()
                .rev()
                .find(|s| s.to.is_none() && s.item.0 == item.0 && s.item.1 == item.1 && s.item.2 == item.2)
                .expect("an open stay");
            assert_eq!(stay.lines.bytes, lines.bytes);
            stay.to = Some(at);
        }
    }

    fn end_version(&mut self, cal: &Calendar, key: &[u8], version: &Version, at: u64) {
        match version.kind {
            Kind::Object { size, class, entered, .. } => {
                let lines = billed(class, size);
                self.end(cal, (key, version.id, 0), lines, at);
                self.meters.early(cal, class, lines.bytes, entered, at);
            }
            Kind::Marker => self.end(cal, (key, version.id, 0), marker_lines(key.len() as u64), at),
        }
    }

    /// Puts a version on top of a stack at `at`, and says whether it took the place of the null version.
    fn put_on_top(&mut self, cal: &Calendar, stack: &mut Stack, id: u64, kind: Kind, at: u64) -> bool {
        let lines = match kind {
            Kind::Object { size, class, .. } => billed(class, size),
            Kind::Marker => marker_lines(stack.key.len() as u64),
        };
        let place = if id == NULL { stack.null_place() } else { None };
        if let Some(place) = place {
            let gone = stack.versions.remove(place).unwrap();
            if place < stack.versions.len() {
                // a noncurrent null version went: the current one ceases below
                stack.versions.back_mut().unwrap().ceased = at;
            }
            self.end_version(cal, &stack.key, &gone, at);
        } else if let Some(top) = stack.versions.back_mut() {
            top.ceased = at;
        }
        stack.versions.push_back(Version { id, kind, created: at, ceased: at });
        stack.changed = at;
        self.open(cal, (&stack.key, id, 0), lines, at);
        place.is_some()
    }
}

impl Stack {
    fn null_place(&self) -> Option<usize> {
        self.versions.iter().position(|v| v.id == NULL)
    }
}

impl Bucket {
    /// Puts an object or a marker on a key, with one search of the key, and renews its action.
    /// `None` where a count would pass its limit; the upload's own name counts as freed.
    fn put(&mut self, cal: &Calendar, counts: &mut Counts, key: &[u8], kind: Kind, at: u64, freed: u64) -> Option<()> {
        let enabled = self.schedule.versioning == Versioning::Enabled;
        let id = if enabled { self.next_version } else { NULL };
        match self.stacks.get_mut(key) {
            Some(stack) => {
                let grows = enabled || stack.null_place().is_none();
                if counts.versions + u64::from(grows) > MAX_VERSIONS {
                    return None;
                }
                self.books.put_on_top(cal, stack, id, kind, at);
                self.schedule.renew(stack);
                counts.versions += u64::from(grows);
                counts.names -= freed;
            }
            None => {
                let names = counts.names + key.len() as u64 - freed;
                if counts.versions + 1 > MAX_VERSIONS || names > MAX_NAMES {
                    return None;
                }
                let key: Rc<[u8]> = Rc::from(key);
                let mut stack = Stack { key: key.clone(), changed: at, versions: Default::default(), queued: None };
                self.books.put_on_top(cal, &mut stack, id, kind, at);
                self.schedule.renew(&mut stack);
                self.stacks.insert(key, stack);
                counts.versions += 1;
                counts.names = names;
            }
        }
        self.next_version += u64::from(enabled);
        Some(())
    }

    /// The choice at t by a full scan; used with `--check`.
    fn chosen_by_scan(&self, t: u64) -> Option<(u64, u8, Rc<[u8]>, u64)> {
        let stacks = self.stacks.iter().filter_map(|(key, stack)| {
            self.schedule.slow_least(key, stack).map(|a| (a.since, a.kind, key.clone(), 0))
        });
        let uploads = self.uploads.iter().filter_map(|(n, u)| {
            self.schedule.least_of_upload(u).map(|a| (a.since, a.kind, u.key.clone(), *n))
        });
        stacks.chain(uploads).min().filter(|a| a.0 <= t)
    }

    fn renew_all(&mut self) {
        for stack in self.stacks.values_mut() {
            self.schedule.renew(stack);
        }
        for (number, upload) in &mut self.uploads {
            self.schedule.renew_upload(*number, upload);
        }
    }
}

// ---------------------------------------------------------------- commands and entries

struct BucketName(String);

enum Command {
    CreateBucket { bucket: BucketName },
    SetVersioning { bucket: BucketName, enabled: bool },
    SetRules { bucket: BucketName, rules: RuleSet },
    Put { bucket: BucketName, key: Box<[u8]>, size: u64, class: Class, tags: Tags },
    Delete { bucket: BucketName, key: Box<[u8]> },
    DeleteVersion { bucket: BucketName, key: Box<[u8]>, id: u64 },
    StartUpload { bucket: BucketName, key: Box<[u8]>, class: Class, tags: Tags },
    PutPart { bucket: BucketName, upload: u64, part: u32, size: u64 },
    Complete { bucket: BucketName, upload: u64 },
    Act { bucket: BucketName },
    SetTariff { prices: [u32; 11] },
}

fn encode(out: &mut Vec<u8>, moment: u64, command: &Command) {
    fn text(out: &mut Vec<u8>, bytes: &[u8]) {
        out.extend_from_slice(&(bytes.len() as u16).to_be_bytes());
        out.extend_from_slice(bytes);
    }
    fn head(out: &mut Vec<u8>, kind: u8, bucket: &BucketName) {
        out.push(kind);
        text(out, bucket.0.as_bytes());
    }
    fn tag_list(out: &mut Vec<u8>, tags: &Tags) {
        out.push(tags.len() as u8);
        for (key, value) in tags {
            text(out, key.as_bytes());
            text(out, value.as_bytes());
        }
    }
    out.clear();
    out.extend_from_slice(&moment.to_be_bytes());
    match command {
        Command::CreateBucket { bucket } => head(out, 0x01, bucket),
        Command::SetVersioning { bucket, enabled } => {
            head(out, 0x02, bucket);
            out.push(if *enabled { 1 } else { 2 });
        }
        Command::SetRules { bucket, rules } => {
            head(out, 0x03, bucket);
            out.extend_from_slice(&(rules.printed.len() as u32).to_be_bytes());
            out.extend_from_slice(rules.printed.as_bytes());
        }
        Command::Put { bucket, key, size, class, tags } => {
            head(out, 0x05, bucket);
            text(out, key);
            out.extend_from_slice(&size.to_be_bytes());
            out.push(*class as u8);
            tag_list(out, tags);
        }
        Command::Delete { bucket, key } => {
            head(out, 0x06, bucket);
            text(out, key);
        }
        Command::DeleteVersion { bucket, key, id } => {
            head(out, 0x07, bucket);
            text(out, key);
            out.extend_from_slice(&id.to_be_bytes());
        }
        Command::StartUpload { bucket, key, class, tags } => {
            head(out, 0x09, bucket);
            text(out, key);
            out.push(*class as u8);
            tag_list(out, tags);
        }
        Command::PutPart { bucket, upload, part, size } => {
            head(out, 0x0A, bucket);
            out.extend_from_slice(&upload.to_be_bytes());
            out.extend_from_slice(&part.to_be_bytes());
            out.extend_from_slice(&size.to_be_bytes());
        }
        Command::Complete { bucket, upload } => {
            head(out, 0x0B, bucket);
            out.extend_from_slice(&upload.to_be_bytes());
        }
        Command::Act { bucket } => head(out, 0x0D, bucket),
        Command::SetTariff { prices } => {
            out.push(0x0E);
            for price in prices {
                out.extend_from_slice(&price.to_be_bytes());
            }
        }
    }
}

/// Reads an entry back; `None` where the bytes are no entry of the kinds that `gen` makes.
fn decode(bytes: &[u8]) -> Option<(u64, Command)> {
    struct Reader<'a>(&'a [u8]);
    impl<'a> Reader<'a> {
        fn take(&mut self, n: usize) -> Option<&'a [u8]> {
            let (head, rest) = self.0.split_at_checked(n)?;
            self.0 = rest;
            Some(head)
        }
        fn number(&mut self, n: usize) -> Option<u64> {
            Some(self.take(n)?.iter().fold(0, |sum, b| sum << 8 | u64::from(*b)))
        }
        fn text(&mut self) -> Option<&'a [u8]> {
            let n = self.number(2)? as usize;
            self.take(n)
        }
        fn bucket(&mut self) -> Option<BucketName> {
            let text = std::str::from_utf8(self.text()?).ok()?;
            let fits = (3..=63).contains(&text.len())
                && text.bytes().all(|b| matches!(b, b'a'..=b'z' | b'0'..=b'9' | b'.' | b'-'));
            fits.then(|| BucketName(text.to_string()))
        }
        fn key(&mut self) -> Option<Box<[u8]>> {
            let key = self.text()?;
            ((1..=1024).contains(&key.len()) && std::str::from_utf8(key).is_ok()).then(|| key.into())
        }
        fn class(&mut self) -> Option<Class> {
            CLASSES.get(self.number(1)? as usize).copied()
        }
        fn tags(&mut self) -> Option<Tags> {
            let n = self.number(1)?;
            let mut tags = Tags::new();
            for _ in 0..n {
                let key = std::str::from_utf8(self.text()?).ok()?.to_string();
                let value = std::str::from_utf8(self.text()?).ok()?.to_string();
                if tags.last().is_some_and(|(last, _)| *last >= key) {
                    return None;
                }
                tags.push((key, value));
            }
            Some(tags)
        }
    }
    let mut r = Reader(bytes);
    let moment = r.number(8).filter(|m| *m < END)?;
    let command = match r.number(1)? {
        0x01 => Command::CreateBucket { bucket: r.bucket()? },
        0x02 => Command::SetVersioning { bucket: r.bucket()?, enabled: r.number(1)? == 1 },
        0x03 => {
            let bucket = r.bucket()?;
            let n = r.number(4)? as usize;
            (r.take(n)? == PRINTED.as_bytes()).then(|| Command::SetRules { bucket, rules: gen_rules() })?
        }
        0x05 => Command::Put { bucket: r.bucket()?, key: r.key()?, size: r.number(8)?, class: r.class()?, tags: r.tags()? },
        0x06 => Command::Delete { bucket: r.bucket()?, key: r.key()? },
        0x07 => Command::DeleteVersion { bucket: r.bucket()?, key: r.key()?, id: r.number(8)? },
        0x09 => Command::StartUpload { bucket: r.bucket()?, key: r.key()?, class: r.class()?, tags: r.tags()? },
        0x0A => Command::PutPart { bucket: r.bucket()?, upload: r.number(8)?, part: r.number(4)? as u32, size: r.number(8)? },
        0x0B => Command::Complete { bucket: r.bucket()?, upload: r.number(8)? },
        0x0D => Command::Act { bucket: r.bucket()? },
        0x0E => {
            let mut prices = [0; 11];
            for price in &mut prices {
                *price = r.number(4)? as u32;
            }
            Command::SetTariff { prices }
        }
        _ => return None,
    };
    r.0.is_empty().then_some((moment, command))
}

// ---------------------------------------------------------------- the journal in memory

enum DiskCall {
    Write { at: u64, bytes: Vec<u8> },
    Sync,
}

struct Disk {
    journal: Vec<u8>,
    record: Option<Vec<DiskCall>>,
}

impl Disk {
    fn write_at(&mut self, at: usize, bytes: &[u8]) {
        let over = (self.journal.len() - at).min(bytes.len());
        self.journal[at..at + over].copy_from_slice(&bytes[..over]);
        self.journal.extend_from_slice(&bytes[over..]);
        if let Some(record) = &mut self.record {
            record.push(DiskCall::Write { at: at as u64, bytes: bytes.to_vec() });
        }
    }

    fn sync(&mut self) {
        if let Some(record) = &mut self.record {
            record.push(DiskCall::Sync);
        }
    }

    fn create(&mut self) {
        self.sync();
        self.sync();
        self.write_at(0, &[0]);
        self.sync();
        self.write_at(1, b"METERJRN1");
        self.write_at(10, &[0]);
        self.sync();
        self.write_at(0, &[OPEN]);
        self.sync();
    }

    fn append(&mut self, gate: usize, entry: &[u8]) -> usize {
        self.write_at(gate + 1, &(entry.len() as u32).to_be_bytes());
        self.write_at(gate + 5, entry);
        self.write_at(gate + 5 + entry.len(), &[0]);
        self.sync();
        self.write_at(gate, &[OPEN]);
        self.sync();
        gate + 5 + entry.len()
    }
}

// ---------------------------------------------------------------- the office

enum Outcome {
    Accepted,
    Nothing,
    Refused,
}

#[derive(Default)]
struct Counts {
    versions: u64,
    uploads: u64,
    parts: u64,
    names: u64,
}

impl Office {
    fn new(check: bool) -> Self {
        Office {
            cal: Calendar::new(),
            buckets: BTreeMap::new(),
            last: 0,
            counts: Counts::default(),
            tariff: None,
            check,
            checked: 0,
        }
    }

    /// The office that a journal stands for, as opening it without a checkpoint gives it.
    fn replay(journal: &[u8]) -> Office {
        assert!(journal[0] == OPEN && &journal[1..10] == b"METERJRN1");
        let mut office = Office::new(false);
        let mut gate = 10;
        while journal[gate] == OPEN {
            let n = u32::from_be_bytes(journal[gate + 1..gate + 5].try_into().unwrap()) as usize;
            let (moment, command) = decode(&journal[gate + 5..gate + 5 + n]).expect("an entry");
            assert!(moment >= office.last);
            assert!(matches!(office.apply(moment, command), Outcome::Accepted), "damaged at {gate}");
            gate += 5 + n;
        }
        office
    }

    /// The same for every right implementation of the meters.
    fn meters_sum(&self) -> u128 {
        let mut sum = 0u128;
        for bucket in self.buckets.values() {
            for month in 0..bucket.books.meters.rows.len() {
                for class in 0..6 {
                    let reading = bucket.books.meters.reading(&self.cal, month, class, self.last);
                    let cell = &bucket.books.meters.rows[month][class];
                    sum = sum.wrapping_mul(31).wrapping_add(reading ^ cell.early ^ u128::from(cell.moves));
                }
            }
        }
        sum
    }
}

struct Office {
    cal: Calendar,
    buckets: BTreeMap<String, Bucket>,
    last: u64,
    counts: Counts,
    tariff: Option<[u32; 11]>,
    check: bool,
    checked: u64,
}

impl Office {
    fn apply(&mut self, t: u64, command: Command) -> Outcome {
        match self.try_apply(t, command) {
            Some(Outcome::Accepted) => {
                self.last = t;
                Outcome::Accepted
            }
            Some(other) => other,
            None => Outcome::Refused,
        }
    }

    fn try_apply(&mut self, t: u64, command: Command) -> Option<Outcome> {
        let cal = &self.cal;
        let counts = &mut self.counts;
        match command {
            Command::CreateBucket { bucket } => {
                if self.buckets.contains_key(&bucket.0) {
                    return None;
                }
                let schedule = Schedule {
                    versioning: Versioning::Unversioned,
                    rules: None,
                    rules_since: t,
                    queue: BTreeMap::new(),
                };
                let books = Books { meters: Meters::new(), stays: self.check.then(Vec::new) };
                self.buckets.insert(
                    bucket.0,
                    Bucket { stacks: BTreeMap::new(), uploads: BTreeMap::new(), next_version: 1, next_upload: 1, schedule, books },
                );
            }
            Command::SetVersioning { bucket, enabled } => {
                let b = self.buckets.get_mut(&bucket.0)?;
                if !enabled && b.schedule.versioning == Versioning::Unversioned {
                    return None;
                }
                b.schedule.versioning = if enabled { Versioning::Enabled } else { Versioning::Suspended };
                b.schedule.rules_since = t;
                b.renew_all();
            }
            Command::SetRules { bucket, rules } => {
                let b = self.buckets.get_mut(&bucket.0)?;
                b.schedule.rules = Some(rules);
                b.schedule.rules_since = t;
                b.renew_all();
            }
            Command::SetTariff { prices } => self.tariff = Some(prices),
            Command::Put { bucket, key, size, class, tags } => {
                let b = self.buckets.get_mut(&bucket.0)?;
                let kind = Kind::Object { size, class, tags, entered: t };
                b.put(cal, counts, &key, kind, t, 0)?;
            }
            Command::Delete { bucket, key } => {
                let b = self.buckets.get_mut(&bucket.0)?;
                if b.schedule.versioning == Versioning::Unversioned {
                    let mut stack = b.stacks.remove(&*key)?;
                    let version = stack.versions.pop_back().unwrap();
                    b.books.end_version(cal, &key, &version, t);
                    b.schedule.renew(&mut stack);
                    counts.versions -= 1;
                    counts.names -= key.len() as u64;
                } else {
                    b.put(cal, counts, &key, Kind::Marker, t, 0)?;
                }
            }
            Command::DeleteVersion { bucket, key, id } => {
                let b = self.buckets.get_mut(&bucket.0)?;
                let stack = b.stacks.get_mut(&*key)?;
                let place = stack.versions.iter().position(|v| v.id == id)?;
                let version = stack.versions.remove(place).unwrap();
                stack.changed = t;
                b.books.end_version(cal, &key, &version, t);
                b.schedule.renew(stack);
                counts.versions -= 1;
                if stack.versions.is_empty() {
                    counts.names -= key.len() as u64;
                    b.stacks.remove(&*key);
                }
            }
            Command::StartUpload { bucket, key, class, tags } => {
                let b = self.buckets.get_mut(&bucket.0)?;
                let names = counts.names + key.len() as u64;
                if counts.uploads + 1 > MAX_UPLOADS || names > MAX_NAMES {
                    return None;
                }
                let mut upload = Upload {
                    key: Rc::from(key),
                    class,
                    tags,
                    started: t,
                    changed: t,
                    parts: BTreeMap::new(),
                    queued: None,
                };
                b.schedule.renew_upload(b.next_upload, &mut upload);
                b.uploads.insert(b.next_upload, upload);
                b.next_upload += 1;
                counts.uploads += 1;
                counts.names = names;
            }
            Command::PutPart { bucket, upload, part, size } => {
                let b = self.buckets.get_mut(&bucket.0)?;
                let u = b.uploads.get_mut(&upload)?;
                if !(1..=10_000).contains(&part) || size > 5_368_709_120 {
                    return None;
                }
                if !u.parts.contains_key(&part) {
                    if counts.parts + 1 > MAX_PARTS {
                        return None;
                    }
                    counts.parts += 1;
                }
                if let Some(old) = u.parts.insert(part, Part { size, put: t }) {
                    debug_assert!(old.put <= t);
                    b.books.end(cal, (&u.key, upload, part), part_lines(u.class, old.size), t);
                }
                u.changed = t;
                b.books.open(cal, (&u.key, upload, part), part_lines(u.class, size), t);
                b.schedule.renew_upload(upload, u);
            }
            Command::Complete { bucket, upload } => {
                let b = self.buckets.get_mut(&bucket.0)?;
                let u = b.uploads.get(&upload)?;
                if u.parts.is_empty() || counts.versions + 1 > MAX_VERSIONS && b.schedule.versioning == Versioning::Enabled {
                    return None;
                }
                let u = b.uploads.remove(&upload).unwrap();
                let size = u.parts.values().map(|p| p.size).sum();
                let kind = Kind::Object { size, class: u.class, tags: u.tags.clone(), entered: t };
                let freed = u.key.len() as u64;
                if b.put(cal, counts, &u.key, kind, t, freed).is_none() {
                    b.uploads.insert(upload, u);
                    return None;
                }
                for (number, part) in &u.parts {
                    b.books.end(cal, (&u.key, upload, *number), part_lines(u.class, part.size), t);
                }
                b.schedule.drop_upload(upload, &u);
                counts.parts -= u.parts.len() as u64;
                counts.uploads -= 1;
            }
            Command::Act { bucket } => {
                let b = self.buckets.get_mut(&bucket.0)?;
                let first = b.schedule.queue.first_key_value().filter(|(place, _)| place.0 <= t);
                if self.check {
                    self.checked += 1;
                    assert_eq!(first.map(|(place, _)| place.clone()), b.chosen_by_scan(t));
                    if let Some((place, action)) = first.filter(|(p, _)| p.1 != ABORT) {
                        assert_eq!(Some(*action), b.schedule.slow_least(&place.2, &b.stacks[&place.2]));
                    }
                }
                let Some((place, action)) = first else { return Some(Outcome::Nothing) };
                let (since, number, action) = (place.0, place.3, *action);
                if action.kind == ABORT {
                    let u = b.uploads.remove(&number).unwrap();
                    b.schedule.queue.pop_first();
                    for (n, part) in &u.parts {
                        b.books.end(cal, (&u.key, number, *n), part_lines(u.class, part.size), since);
                    }
                    counts.parts -= u.parts.len() as u64;
                    counts.uploads -= 1;
                    counts.names -= u.key.len() as u64;
                    return Some(Outcome::Accepted);
                }
                let key = place.2.clone();
                let stack = b.stacks.get_mut(&key).unwrap();
                match action.kind {
                    REMOVE => {
                        let version = stack.versions.remove(action.place).unwrap();
                        b.books.end_version(cal, &key, &version, since);
                        counts.versions -= 1;
                    }
                    TRANSITION => {
                        let to = CLASSES[5 - action.warmth as usize];
                        let v = &mut stack.versions[action.place];
                        let id = v.id;
                        let Kind::Object { size, class, entered, .. } = &mut v.kind else { unreachable!() };
                        let lines = billed(*class, *size);
                        b.books.end(cal, (&key, id, 0), lines, since);
                        b.books.meters.early(cal, *class, lines.bytes, *entered, since);
                        *class = to;
                        *entered = since;
                        b.books.open(cal, (&key, id, 0), billed(to, *size), since);
                        b.books.meters.moved(cal, to, since);
                    }
                    _ => {
                        let enabled = b.schedule.versioning == Versioning::Enabled;
                        let id = if enabled { b.next_version } else { NULL };
                        b.next_version += u64::from(enabled);
                        if !b.books.put_on_top(cal, stack, id, Kind::Marker, since) {
                            counts.versions += 1;
                        }
                    }
                }
                stack.changed = since;
                b.schedule.renew(stack);
                if stack.versions.is_empty() {
                    counts.names -= key.len() as u64;
                    b.stacks.remove(&key);
                }
            }
        }
        Some(Outcome::Accepted)
    }
}

// ---------------------------------------------------------------- the generator

const PRINTED: &str = "{\"Rules\":[{\"Expiration\":{\"Days\":60},\"Filter\":{\"Prefix\":\"\"},\"ID\":\"rule-1\",\"NoncurrentVersionExpiration\":{\"NoncurrentDays\":10},\"Status\":\"Enabled\",\"Transitions\":[{\"Days\":30,\"StorageClass\":\"STANDARD_IA\"}]}],\"TransitionDefaultMinimumObjectSize\":\"all_storage_classes_128K\"}";

fn gen_rules() -> RuleSet {
    RuleSet {
        rules: vec![Rule {
            enabled: true,
            filter: Filter { prefix: Vec::new(), tags: Vec::new(), greater: None, less: None },
            expiration: Some(When::Days(60)),
            lone_marker: false,
            transitions: vec![Transition { when: When::Days(30), to: Class::StandardIa }],
            noncurrent_expiration: Some((10, 0)),
            noncurrent_moves: Vec::new(),
            abort_days: None,
        }],
        varies: false,
        printed: PRINTED,
    }
}

struct Draws(u64);

impl Draws {
    fn next(&mut self) -> u64 {
        self.0 = self.0.wrapping_mul(6_364_136_223_846_793_005).wrapping_add(1_442_695_040_888_963_407);
        self.0 >> 33
    }
}

fn command(k: u64, draws: &mut Draws, clock: &mut u64) -> Command {
    let named = |n: u64| BucketName(format!("gen-{n}"));
    match k {
        0..=3 => return Command::CreateBucket { bucket: named(k) },
        4 => return Command::SetVersioning { bucket: named(1), enabled: true },
        5 | 6 => return Command::SetRules { bucket: named(k - 5), rules: gen_rules() },
        7 => return Command::SetTariff { prices: [1_000; 11] },
        _ => {}
    }
    *clock = (*clock + draws.next() % 21_600_000).min(END - 1);
    let bucket = named(draws.next() % 4);
    let d = draws.next() % 16;
    let key: Box<[u8]> = format!("k{}", draws.next() % 500).into_bytes().into();
    match d {
        0..=6 => {
            let size = draws.next() % 1_048_576;
            let class = CLASSES[(draws.next() % 6) as usize];
            Command::Put { bucket, key, size, class, tags: Vec::new() }
        }
        7 => Command::Delete { bucket, key },
        8 => Command::DeleteVersion { bucket, key, id: draws.next() % 8 },
        9 => Command::StartUpload { bucket, key, class: Class::Standard, tags: Vec::new() },
        10 => {
            let upload = 1 + draws.next() % 8;
            let part = 1 + (draws.next() % 4) as u32;
            Command::PutPart { bucket, upload, part, size: draws.next() % 1_048_576 }
        }
        11 => Command::Complete { bucket, upload: 1 + draws.next() % 8 },
        _ => Command::Act { bucket },
    }
}

fn main() {
    let words: Vec<String> = std::env::args().skip(1).collect();
    let flag = |name: &str| words.iter().any(|w| w == name);
    let number: u64 = words.first().and_then(|w| w.parse().ok()).expect("NUMBER COUNT");
    let count: u64 = words.get(1).and_then(|w| w.parse().ok()).expect("NUMBER COUNT");

    let begin = Instant::now();
    let mut disk = Disk { journal: Vec::new(), record: flag("--record").then(Vec::new) };
    disk.create();
    let mut office = Office::new(flag("--check"));
    let mut draws = Draws(number);
    let mut clock = GEN_START;
    let mut gate = 10;
    let mut entry = Vec::new();
    let (mut accepted, mut refused, mut nothing) = (0u64, 0u64, 0u64);
    for k in 0..count {
        let ask = command(k, &mut draws, &mut clock);
        let moment = clock.max(office.last);
        encode(&mut entry, moment, &ask);
        assert!(gate as u64 + 6 + entry.len() as u64 <= JOURNAL_LIMIT);
        match office.apply(moment, ask) {
            Outcome::Accepted => {
                gate = disk.append(gate, &entry);
                accepted += 1;
            }
            Outcome::Nothing => nothing += 1,
            Outcome::Refused => refused += 1,
        }
    }
    let spent = begin.elapsed();

    println!(
        "commands {count} accepted {accepted} refused {refused} nothing {nothing} versions {} uploads {} journal {}",
        office.counts.versions,
        office.counts.uploads,
        disk.journal.len()
    );

    let sum = office.meters_sum();
    if flag("--replay") {
        let begin = Instant::now();
        let again = Office::replay(&disk.journal);
        let spent = begin.elapsed();
        assert_eq!(again.meters_sum(), sum);
        assert_eq!((again.counts.versions, again.counts.uploads), (office.counts.versions, office.counts.uploads));
        eprintln!(
            "replay entries {accepted} ms {:.1} per_second {:.0}",
            spent.as_secs_f64() * 1e3,
            accepted as f64 / spent.as_secs_f64()
        );
    }
    if let Some(at) = words.iter().position(|w| w == "--journal") {
        std::fs::write(&words[at + 1], &disk.journal).expect("journal file");
    }
    if office.check {
        check_meters(&office);
    }
    let calls = disk.record.as_ref().map_or(0, Vec::len);
    let kept: u64 = disk.record.iter().flatten().map(|c| match c {
        DiskCall::Write { at, bytes } => (*at & 1) + bytes.len() as u64,
        DiskCall::Sync => 0,
    }).sum();
    eprintln!(
        "ms {:.1} per_command_ns {:.0} meters {:x} tariff {} calls {calls} kept {kept} checked {}",
        spent.as_secs_f64() * 1e3,
        spent.as_nanos() as f64 / count.max(1) as f64,
        sum,
        office.tariff.is_some(),
        office.checked
    );
}

fn check_meters(office: &Office) {
    let t = office.last;
    for bucket in office.buckets.values() {
        let stays = bucket.books.stays.as_ref().unwrap();
        let mut sums = vec![[0u128; 6]; bucket.books.meters.rows.len()];
        for stay in stays {
            let to = stay.to.unwrap_or(t).min(t);
            let mut month = office.cal.month_of(stay.from);
            while month < sums.len() && office.cal.starts[month] < to {
                let from = stay.from.max(office.cal.starts[month]);
                let until = to.min(office.cal.starts[month + 1]);
                let ms = u128::from(until.saturating_sub(from));
                sums[month][stay.lines.class as usize] += u128::from(stay.lines.bytes) * ms;
                sums[month][0] += u128::from(stay.lines.standard) * ms;
                month += 1;
            }
        }
        for (month, row) in sums.iter().enumerate() {
            for (class, &sum) in row.iter().enumerate() {
                assert_eq!(sum, bucket.books.meters.reading(&office.cal, month, class, t), "month {month} class {class}");
            }
        }
    }
}
