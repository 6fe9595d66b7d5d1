//! Tests an ordered map of your own. Threads call its functions, and what they do is recorded. The program `bench` judges each recording, or follows
//! one stream. Copy this file next to a source that says `mod potzendai;`. It needs only Rust 1.70 and the program.
//!
//!     fn main() {
//!         std::process::exit(potzendai::run("mine", || Mine::new(), std::env::args().skip(1)));
//!     }
//!
//! In a test, `potzendai::check("mine", || Mine::new(), &["--seconds", "5"])` panics with the explanation.
//!
//! With `--cfg potzendai_library` it calls the library instead of the program: `-L FOLDER -l static=potzendai` links it.
#![allow(dead_code, unused_imports, unknown_lints, unexpected_cfgs)]

use std::cell::RefCell;
use std::collections::{BTreeMap, BTreeSet, HashMap, HashSet};
use std::fmt::Write as _;
use std::io::{IsTerminal, Read, Write};
use std::panic::{catch_unwind, AssertUnwindSafe};
use std::process::{Command, ExitStatus, Stdio};
use std::sync::atomic::{AtomicBool, AtomicU64, AtomicUsize, Ordering::{Relaxed, SeqCst}};
use std::sync::mpsc::{channel, Receiver, Sender, TryRecvError};
use std::sync::{Arc, Mutex};
use std::time::{Duration, Instant, SystemTime};

/// What a function of the map answers: a value or pairs, or a word if it does not report them.
#[derive(Clone, Debug, PartialEq)]
pub enum Said {
    Told(u64),
    Pair(u64, u64),
    Pairs(Vec<(u64, u64)>),
    /// There was no value.
    None,
    /// It was done, and nothing is reported.
    Done,
    /// There was a value, which is not reported; or a pair, of which only the key is reported.
    Found,
    FoundKey(u64),
    /// The old value was not there, and nothing has changed.
    Other,
    /// Nothing has changed, as after a transaction that was rolled back.
    Refused,
    /// Nobody knows whether it was done, for example after a request that timed out.
    Unknown,
    /// The map has no such function.
    Missing,
}

impl From<Option<u64>> for Said {
    fn from(value: Option<u64>) -> Said {
        value.map_or(Said::None, Said::Told)
    }
}

impl Said {
    fn word(&self) -> usize {
        match self {
            Said::Told(_) | Said::Pair(..) | Said::Pairs(_) => 0,
            Said::None => 1,
            Said::Done => 2,
            Said::Found | Said::FoundKey(_) => 3,
            Said::Other => 4,
            Said::Refused => 5,
            Said::Unknown => 6,
            Said::Missing => 7,
        }
    }

    fn tells(&self) -> bool {
        matches!(self, Said::Told(_) | Said::None)
    }
}

/// What one thread calls, as a reference to the map: any function except `get` and `put` may be left out. Nothing else changes the map.
pub trait Connection {
    /// The value.
    fn get(&mut self, key: u64) -> Said;
    /// The value before.
    fn put(&mut self, key: u64, value: u64) -> Said;
    /// The value before.
    fn del(&mut self, _key: u64) -> Said {
        Said::Missing
    }
    /// The pairs of one moment, both ends included, by rising keys.
    fn scan(&mut self, _low: u64, _high: u64) -> Said {
        Said::Missing
    }
    /// The value found; or Done if it was replaced, Other if it was not.
    fn replace(&mut self, _key: u64, _old: u64, _value: u64) -> Said {
        Said::Missing
    }
    /// None if it was put, otherwise the value found.
    fn put_if_absent(&mut self, _key: u64, _value: u64) -> Said {
        Said::Missing
    }
    /// The greatest pair up to the key.
    fn floor(&mut self, _key: u64) -> Said {
        Said::Missing
    }
    /// The least pair from the key on.
    fn ceiling(&mut self, _key: u64) -> Said {
        Said::Missing
    }
    /// The least pair, which is removed.
    fn pop_first(&mut self) -> Said {
        Said::Missing
    }
}

/// A map, on which each thread opens a handle of its own.
pub trait Map: Sync {
    fn open(&self) -> Box<dyn Connection + '_>;
    /// For `--reopen`: closes the map at rest, and returns it opened again, with what it held.
    fn reopen(self) -> Option<Self>
    where
        Self: Sized,
    {
        None
    }
}

const SAYINGS: [&str; 8] = ["told", "none", "done", "found", "other", "refused", "unknown", "that it is missing"];
const VERDICTS: [&str; 3] = ["yes", "no", "undecided"];
const YES: i32 = 0;
const NO: i32 = 1;
const UNDECIDED: i32 = 2;
const MEMORY: i32 = 4;
const BAD_WORDS: i32 = 5;
const BAD_FILE: i32 = 6;
const PROCESSES: usize = 64;
const CALLS: u64 = 4096;
const SPAN: u64 = 16;
const SELDOM: u64 = 20;
/// The limits of a stream and of its keys; how many stamps a thread may be ahead of what is written; how many bytes are written at once.
const STREAM_PROCESSES: usize = 65536;
const STREAM_KEYS: u64 = 16384;
/// How many bytes are shown of the report of a stream without order, and how many of a stream are stored for a file.
const REPORT_SHOWN: usize = 1000;
const KEPT: usize = 1 << 26;
/// Under `--cache`, values from here on are the driver's own.
const OWN_VALUES: u64 = 1 << 63;
/// How many calls a stream may have on behalf of one call; how many of its last events keep their notes; how many other open calls are shown.
const BESIDE: usize = 32;
const NOTES: u64 = 1_000_000;
const OPEN_SHOWN: usize = 6;
/// This many rounds are judged together, with this many calls.
const BATCH_ROUNDS: usize = 64;
const BATCH_CALLS: usize = 256;
const AGAIN: &str = "  again (draws the same calls; threads may interleave otherwise): ";
const RENUMBERED: &str = "here and in the files, events and processes have new numbers. The calls are those \"invoked\" above, by rising event:";
const AHEAD: u64 = 8192;
const BATCH: usize = 65536;

#[derive(Clone, Copy, Debug, PartialEq, Eq)]
enum Kind {
    Get,
    Put,
    Del,
    Scan,
    Replace,
    PutIfAbsent,
    Floor,
    Ceiling,
    PopFirst,
}

use Kind::*;

const KINDS: [Kind; 9] = [Get, Put, Del, Scan, Replace, PutIfAbsent, Floor, Ceiling, PopFirst];
const NAMES: [&str; 9] = ["get", "put", "del", "scan", "replace", "put_if_absent", "floor", "ceiling", "pop_first"];
const SHARES: [u64; 9] = [40, 30, 10, 5, 10, 5, 3, 3, 2];
const BREAKS: [(&str, Kind); 7] =
    [("drop", Put), ("race", Put), ("replay", Put), ("stale", Get), ("zombie", Del), ("torn", Scan), ("cas", Replace)];

impl Kind {
    fn name(self) -> &'static str {
        NAMES[self as usize]
    }

    fn writes(self) -> bool {
        matches!(self, Put | Del | Replace | PutIfAbsent | PopFirst)
    }

    fn reads(self) -> bool {
        matches!(self, Get | Scan | Floor | Ceiling)
    }

    /// Whether the answer says which call of a history it was. Of a cache each one does, since the note of a call has its answer.
    fn is_held(self, options: &Options) -> bool {
        options.cache.is_some() || matches!(self, PutIfAbsent | Floor | Ceiling | PopFirst)
    }

    /// The call in a history, as far as it is known before the answer.
    fn call(self) -> &'static str {
        ["get", "insert", "remove", "scan", "replace", "insert", "scan", "scan", "remove"][self as usize]
    }

    fn fits(self, said: &Said) -> bool {
        match said {
            Said::Told(_) => matches!(self, Get | Put | Del | Replace | PutIfAbsent),
            Said::Pair(..) | Said::FoundKey(_) => matches!(self, Floor | Ceiling | PopFirst),
            Said::Pairs(_) => self == Scan,
            Said::None => true,
            Said::Done => self.reads() || matches!(self, Put | Del | Replace),
            Said::Found => matches!(self, Get | Put | Del | Replace | PutIfAbsent),
            Said::Other => self == Replace,
            Said::Refused => true,
            Said::Unknown => self != PopFirst,
            Said::Missing => false,
        }
    }
}

/// Ends a run with a status and a line.
#[derive(Clone, Debug)]
struct Stop(i32, String);

fn fail<T>(status: i32, line: impl Into<String>) -> Result<T, Stop> {
    Err(Stop(status, line.into()))
}

// Draws

const GAMMA: u64 = 0x9e37_79b9_7f4a_7c15;

/// Steele, Lea and Flood's SplitMix: the number that a state gives.
fn mixed(state: u64) -> u64 {
    let z = state.wrapping_add(GAMMA);
    let z = (z ^ z >> 30).wrapping_mul(0xbf58_476d_1ce4_e5b9);
    let z = (z ^ z >> 27).wrapping_mul(0x94d0_49bb_1331_11eb);
    z ^ z >> 31
}

/// Numbers that a seed, a round and a thread decide.
struct Draws(u64);

impl Draws {
    fn new(seed: u64, round: u64, thread: u64) -> Draws {
        Draws(mixed(seed) ^ mixed(round + (1 << 40)) ^ mixed(thread + (1 << 50)))
    }

    fn below(&mut self, bound: u64) -> u64 {
        let drawn = mixed(self.0) % bound;
        self.0 = self.0.wrapping_add(GAMMA);
        drawn
    }

    fn pause(&mut self) {
        if self.below(4) != 0 {
            std::thread::yield_now();
        } else {
            std::thread::sleep(Duration::from_nanos(1000 + self.below(50000)));
        }
    }
}

thread_local! {
    static POINTS: RefCell<(u64, Draws)> = const { RefCell::new((0, Draws(0))) };
}

static HAS_POINTS: AtomicBool = AtomicBool::new(false);

/// A map's functions may call this at each place where another thread should be able to run: under `--yield` it sometimes does.
pub fn point() {
    HAS_POINTS.store(true, Relaxed);
    give_way();
}

thread_local! {
    static TAKEN: RefCell<Option<(Arc<AtomicU64>, Vec<u64>)>> = const { RefCell::new(None) };
}

/// A map's read may call this when it has its snapshot. The read counts as answered at that moment, and may read its pairs later.
pub fn taken() {
    TAKEN.with(|taken| {
        if let Some((stamps, drawn)) = &mut *taken.borrow_mut() {
            drawn.push(stamps.fetch_add(1, SeqCst));
        }
    });
}

fn give_way() {
    POINTS.with(|points| {
        let (often, draws) = &mut *points.borrow_mut();
        if *often > 0 && draws.below(1000) < *often {
            draws.pause();
        }
    });
}

// What a history has of a call

/// A call of a history: its name and its words.
#[derive(Clone, Debug)]
struct Call(&'static str, Vec<u64>);

impl Call {
    fn text(&self) -> String {
        let words: String = self.1.iter().map(|word| format!(",{word}")).collect();
        format!("[\"{}\"{words}]", self.0)
    }

    /// The value that it puts.
    fn put(&self) -> Option<u64> {
        if matches!(self.0, "insert" | "replace") { self.1.last().copied() } else { None }
    }

    fn said(&self) -> String {
        let words = &self.1;
        match self.0 {
            "insert" => format!("put {} at {}", words[1], words[0]),
            "replace" => format!("replace {} at {} by {}", words[1], words[0], words[2]),
            "scan" => format!("scan from {} to {}", words[0], words[1]),
            name => format!("{name} {}", words[0]),
        }
    }

    /// Whether two calls have a key in common.
    fn meets(&self, other: &Call) -> bool {
        let ends = |call: &Call| (call.1[0], if call.0 == "scan" { call.1[1] } else { call.1[0] });
        let ((low, high), (from, to)) = (ends(self), ends(other));
        low <= to && from <= high
    }
}

fn pairs_text(pairs: &[(u64, u64)]) -> String {
    let texts: Vec<String> = pairs.iter().map(|(key, value)| format!("[{key},{value}]")).collect();
    format!("[{}]", texts.join(","))
}

/// An answer as a text; none if the call stays open.
fn answer_text(said: &Said) -> Option<String> {
    match said {
        Said::Told(value) | Said::Pair(_, value) => Some(value.to_string()),
        Said::None => Some("null".to_string()),
        Said::Unknown => None,
        other => Some(format!("\"{}\"", SAYINGS[other.word()])),
    }
}

/// Floor and ceiling are scans from the key to what was found, or to the end.
fn edge(kind: Kind, key: u64, said: &Said) -> (Call, Option<String>) {
    let (low, high) = if kind == Floor { (0, key) } else { (key, u64::MAX) };
    match *said {
        Said::FoundKey(found) => (Call("get", vec![found]), Some("\"found\"".to_string())),
        Said::Pair(found, value) => {
            let (from, to) = if kind == Floor { (found, key) } else { (key, found) };
            let words = if from <= to { vec![from, to] } else { vec![low, high] };
            (Call("scan", words), Some(pairs_text(&[(found, value)])))
        }
        _ => (Call("scan", vec![low, high]), Some("[]".to_string())),
    }
}

/// The call and the answer that a history has; none if it is left out, since it reports nothing.
fn noted(kind: Kind, words: &[u64], said: &Said) -> Option<(Call, Option<String>)> {
    let tells_nothing = kind.reads() && matches!(said, Said::Done | Said::Unknown);
    if tells_nothing || *said == Said::Refused && !matches!(kind, Put | Del | Replace) {
        return None;
    }
    Some(match (kind, said) {
        (Floor | Ceiling, _) => edge(kind, words[0], said),
        (PopFirst, Said::Pair(key, _) | Said::FoundKey(key)) => (Call("remove", vec![*key]), answer_text(said)),
        (PopFirst, _) => (Call("scan", vec![0, u64::MAX]), Some("[]".to_string())),
        (Scan, Said::None) => (Call("scan", words.to_vec()), Some("[]".to_string())),
        (Scan, Said::Pairs(pairs)) => (Call("scan", words.to_vec()), Some(pairs_text(pairs))),
        (PutIfAbsent, Said::Told(_) | Said::Found) => (Call("get", vec![words[0]]), answer_text(said)),
        (Replace, Said::Done) => (Call("replace", words.to_vec()), Some(words[1].to_string())),
        _ => (Call(kind.call(), words.to_vec()), answer_text(said)),
    })
}

/// What a history has of a call: its invocation, and its answer, or none if the call stays open. Also a note of the call as it was made, if that is
/// another one, and further calls of the same interval, each by a process of its own.
#[derive(Clone, Debug)]
struct Noted {
    call: Call,
    answer: Option<String>,
    note: Option<String>,
    beside: Vec<Noted>,
}

impl Noted {
    fn done(call: Call, note: String) -> Noted {
        Noted { call, answer: Some("\"done\"".to_string()), note: Some(note), beside: vec![] }
    }
}

/// What a history has of a call. A cache may lose any key at any time, so a miss is recorded in such a way that the key has no value from then on. So
/// this history has an order if and only if the cache's own has one in which keys may be lost. Late: a miss says nothing.
fn recorded(options: &Options, kind: Kind, words: &[u64], said: &Said, fresh: &mut dyn FnMut() -> u64) -> Option<Noted> {
    let (call, answer) = noted(kind, words, said)?;
    let plain = Noted { call, answer, note: None, beside: vec![] };
    let Some(cache) = &options.cache else { return Some(plain) };
    let (is_late, is_none, before) = (cache == "late", *said == Said::None, plain.call.said());
    if is_late && (*said == Said::Other || is_none && !matches!(kind, Put | Del | PutIfAbsent)) {
        return None;
    }
    let none = if is_late { ", answered none" } else { ", answered none: the key was gone" };
    match (kind, said) {
        (Put | PutIfAbsent, Said::None) => Some(Noted::done(Call("insert", words.to_vec()), before + none)),
        (Get | Del | Replace, Said::None) => Some(Noted::done(Call("remove", vec![words[0]]), before + none)),
        (_, Said::Other) => Some(Noted::done(Call("replace", vec![words[0], words[1], fresh()]), before + ", answered another value")),
        _ if plain.call.0 == "scan" => recorded_scan(options, plain, said, is_late, &before),
        _ => Some(plain),
    }
}

fn recorded_scan(options: &Options, plain: Noted, said: &Said, is_late: bool, before: &str) -> Option<Noted> {
    let pairs = match said {
        Said::Pairs(pairs) => pairs.clone(),
        Said::Pair(key, value) => vec![(*key, *value)],
        _ => vec![],
    };
    if is_late {
        let mut gets = pairs.iter().map(|(key, value)| {
            let (call, note) = (Call("get", vec![*key]), Some(format!("{before}, answered {key}: {value}")));
            Noted { call, answer: Some(value.to_string()), note, beside: vec![] }
        });
        let mut first = gets.next()?;
        first.beside = gets.collect();
        return Some(first);
    }
    let keys = (plain.call.1[0]..options.keys).take_while(|key| *key <= plain.call.1[1]);
    let missing = keys.filter(|key| pairs.iter().all(|(held, _)| held != key));
    let note = |key| format!("{before}, which did not have {key}: the key was gone");
    let beside = missing.map(|key| Noted::done(Call("remove", vec![key]), note(key))).collect();
    Some(Noted { beside, ..plain })
}

fn ask_any(connection: &mut dyn Connection, kind: Kind, words: &[u64]) -> Said {
    match kind {
        Get => connection.get(words[0]),
        Put => connection.put(words[0], words[1]),
        Del => connection.del(words[0]),
        Scan => connection.scan(words[0], words[1]),
        Replace => connection.replace(words[0], words[1], words[2]),
        PutIfAbsent => connection.put_if_absent(words[0], words[1]),
        Floor => connection.floor(words[0]),
        Ceiling => connection.ceiling(words[0]),
        PopFirst => connection.pop_first(),
    }
}

fn ask(options: &Options, connection: &mut dyn Connection, kind: Kind, words: &[u64]) -> Result<Said, Stop> {
    let said = ask_any(connection, kind, words);
    let values = match &said {
        Said::Told(value) | Said::Pair(_, value) => vec![*value],
        Said::Pairs(pairs) => pairs.iter().map(|(_, value)| *value).collect(),
        _ => vec![],
    };
    if options.cache.is_some() && values.iter().any(|value| *value >= OWN_VALUES) {
        return fail(BAD_WORDS, format!("{} said a value from 2^63 on, and --cache needs these for its own use", kind.name()));
    }
    if kind.fits(&said) {
        return Ok(said);
    }
    fail(BAD_WORDS, format!("{} said {}, which does not fit it", kind.name(), SAYINGS[said.word()]))
}

/// Which functions a map has. Each is called once, on a map that is not used afterwards.
fn functions<M: Map>(map: &M) -> [bool; 9] {
    let mut connection = map.open();
    KINDS.map(|kind| matches!(kind, Get | Put) || ask_any(&mut *connection, kind, &[0, 1, 2]) != Said::Missing)
}

// A map that is wrong now and then, around one that may be right: a test of the test

struct Broken<'a> {
    truly: Box<dyn Connection + 'a>,
    how: String,
    draws: Draws,
    keys: u64,
    once: HashMap<u64, Said>,
    late: Option<(u64, u64)>,
    style: Option<Said>,
    times: Arc<AtomicU64>, // how often it went wrong
}

impl<'a> Broken<'a> {
    fn goes(&mut self, how: &str) -> bool {
        self.how == how && self.draws.below(SELDOM) == 0
    }

    fn count(&self) {
        self.times.fetch_add(1, SeqCst);
    }

    /// Makes a put that is still to come, soon.
    fn caught_up(&mut self) -> &mut Box<dyn Connection + 'a> {
        if let Some((key, value)) = self.late {
            if self.draws.below(2) == 1 {
                self.late = None;
                self.count();
                self.truly.put(key, value);
            }
        }
        &mut self.truly
    }

    /// What the put of the map would say if a get says this.
    fn in_style(&self, got: Said) -> Said {
        match (&self.style, &got) {
            (Some(Said::Done), _) => Said::Done,
            (Some(Said::Found), Said::Told(_)) => Said::Found,
            _ => got,
        }
    }

    /// Makes a get and then a put, as if they were one call. If the put reports what it found, the get is of the same key. Otherwise the get is of
    /// the key next to it, and what it got is put back.
    fn race(&mut self, key: u64, value: u64) -> Said {
        let tells = matches!(self.style, Some(Said::Told(_)));
        let beside = if tells || key ^ 1 >= self.keys { key } else { key ^ 1 };
        let got = self.truly.get(beside);
        self.draws.pause();
        if let (true, Said::Told(back)) = (beside != key, &got) {
            self.truly.put(beside, *back);
        }
        let said = self.truly.put(key, value);
        if beside != key || self.style == Some(Said::Done) || !got.tells() {
            return said;
        }
        self.in_style(got)
    }
}

impl Connection for Broken<'_> {
    fn get(&mut self, key: u64) -> Said {
        self.caught_up();
        let once = self.once.get(&key).cloned();
        if once.is_some() && self.goes("stale") {
            self.count();
            return once.unwrap_or(Said::None);
        }
        let said = self.truly.get(key);
        if said.tells() && (once.is_none() || self.draws.below(4) == 0) {
            self.once.insert(key, said.clone());
        }
        said
    }

    fn put(&mut self, key: u64, value: u64) -> Said {
        self.caught_up();
        if self.style.is_some() && self.goes("race") {
            self.count();
            return self.race(key, value);
        }
        if self.style.is_some() && self.goes("drop") {
            let got = self.truly.get(key);
            if got.tells() {
                self.count();
                return self.in_style(got);
            }
        }
        if self.goes("replay") {
            self.late = Some((key, value));
        }
        let said = self.truly.put(key, value);
        if matches!(said, Said::Told(_) | Said::Done | Said::Found) {
            self.style = Some(said.clone());
        }
        said
    }

    fn del(&mut self, key: u64) -> Said {
        self.caught_up();
        if self.goes("zombie") {
            if let Said::Told(value) = self.truly.get(key) {
                self.late = Some((key, value));
            }
        }
        self.truly.del(key)
    }

    fn scan(&mut self, low: u64, high: u64) -> Said {
        self.caught_up();
        if low == high || !self.goes("torn") {
            return self.truly.scan(low, high);
        }
        let middle = (low + high) / 2;
        let first = self.truly.scan(low, middle);
        self.draws.pause();
        match (first, self.truly.scan(middle + 1, high)) {
            (Said::Pairs(first), Said::Pairs(second)) => {
                self.count();
                Said::Pairs([first, second].concat())
            }
            _ => self.truly.scan(low, high),
        }
    }

    fn replace(&mut self, key: u64, old: u64, value: u64) -> Said {
        self.caught_up();
        if !self.goes("cas") {
            return self.truly.replace(key, old, value);
        }
        match self.truly.put(key, value) {
            said @ (Said::Refused | Said::Unknown) => said,
            _ => {
                self.count();
                Said::Done
            }
        }
    }

    fn put_if_absent(&mut self, key: u64, value: u64) -> Said {
        self.caught_up().put_if_absent(key, value)
    }

    fn floor(&mut self, key: u64) -> Said {
        self.caught_up().floor(key)
    }

    fn ceiling(&mut self, key: u64) -> Said {
        self.caught_up().ceiling(key)
    }

    fn pop_first(&mut self) -> Said {
        self.caught_up().pop_first()
    }
}

// Threads and what they record

/// An event: the invocation of a call, or an answer.
#[derive(Clone, Debug)]
enum What {
    Invoke(Call),
    Answer(String),
}

/// The thread, and which of its processes it is.
#[derive(Clone, Debug)]
struct Event {
    stamp: u64,
    thread: usize,
    life: usize,
    what: What,
    note: Option<String>,
    /// The function, unless no thread called one, and what it said, when the call is over.
    kind: &'static str,
    said: usize,
    beside: Arc<Vec<Noted>>,
}

/// The two events of a call; there is no second one if the call stays open.
fn events_of(stamps: [u64; 2], who: (usize, usize), kind: &'static str, said: usize, noted: Noted) -> Vec<Event> {
    let (beside, (thread, life)) = (Arc::new(noted.beside), who);
    let (what, note) = (What::Invoke(noted.call), noted.note);
    let mut events = vec![Event { stamp: stamps[0], thread, life, what, note, kind, said, beside: beside.clone() }];
    if let Some(answer) = noted.answer {
        events.push(Event { stamp: stamps[1], thread, life, what: What::Answer(answer), note: None, kind, said, beside });
    }
    events
}

/// Whether a function changes the key that it is called with.
fn writes_key(kind: &str) -> bool {
    matches!(kind, "put" | "del" | "replace" | "put_if_absent")
}

/// The number of a round, how many processes a thread may be in turn, what the map holds, and the keys at which calls have no answer.
#[derive(Clone)]
struct Task {
    round: u64,
    lives: usize,
    start: Arc<BTreeMap<u64, u64>>,
    doubtful: Arc<HashSet<u64>>,
    missing: Arc<AtomicUsize>,
    values_from: u64,
}

/// What all threads share: the word of stamps, the locks of keys, and the stream, if it is one. With each lock goes whether a call that writes the
/// key has no answer, and so may still take effect between a get and the put after it.
struct Shared {
    stamps: Arc<AtomicU64>,
    locks: Vec<Mutex<bool>>,
    stream: Option<Stream>,
}

/// A part of what a stamp of a stream has: a call of a process with its note, or its answer, or nothing if the call stays open.
struct Part {
    process: usize,
    call: Option<Call>,
    answer: Option<String>,
    note: Option<String>,
}

/// What a stamp of a stream has: first the event of a thread, then the events on its behalf; their function; and what the map said, if this ends a
/// call.
#[derive(Default)]
struct Happening {
    parts: Vec<Part>,
    kind: &'static str,
    said: Option<usize>,
    is_left_out: bool,
}

/// Whether a stream is running, is over, or has failed.
const RUNNING: usize = 0;
const OVER: usize = 1;
const FAILED: usize = 2;

/// A stream of events, which a thread of its own writes to the program while others record. Stamps are numbers without a gap, and each has its slot.
/// A thread that is too far ahead of what is written waits, so that memory does not grow. Between its two stamps a thread waits only for lower
/// stamps, so the event of the least stamp always comes.
struct Stream {
    slots: Vec<Mutex<Option<Happening>>>,
    taken: AtomicU64,
    processes: AtomicUsize,
    state: AtomicUsize,
    is_ended: AtomicBool,
}

/// Lets other threads run: most times once, sometimes for some time.
fn rest_some(times: u64) {
    if times % 64 != 0 {
        std::thread::yield_now();
    } else {
        std::thread::sleep(Duration::from_micros(100));
    }
}

impl Stream {
    fn new(threads: u64) -> Stream {
        let slots = (0..AHEAD).map(|_| Mutex::new(None)).collect();
        let (taken, processes, state) = (AtomicU64::new(0), AtomicUsize::new(threads as usize), AtomicUsize::new(RUNNING));
        Stream { slots, taken, processes, state, is_ended: AtomicBool::new(false) }
    }

    /// The slot of a stamp.
    fn slot(&self, stamp: u64) -> std::sync::MutexGuard<'_, Option<Happening>> {
        self.slots[(stamp % AHEAD) as usize].lock().unwrap_or_else(|poisoned| poisoned.into_inner())
    }

    fn put(&self, stamp: u64, what: Happening) {
        for times in 1.. {
            if stamp < self.taken.load(SeqCst) + AHEAD || self.state.load(SeqCst) == FAILED {
                break;
            }
            rest_some(times);
        }
        *self.slot(stamp) = Some(what);
    }

    fn next_process(&self) -> usize {
        self.processes.fetch_add(1, SeqCst)
    }

    fn end_calls(&self) {
        let _ = self.state.compare_exchange(RUNNING, OVER, SeqCst, SeqCst);
    }
}

impl Shared {
    fn stamp(&self) -> u64 {
        self.stamps.fetch_add(1, SeqCst)
    }
}

/// How often the map said each word, and how often each function was called.
#[derive(Clone, Copy, Default)]
struct Counts {
    sayings: [u64; 8],
    called: [u64; 9],
    wrong: u64, // how often the broken map went wrong
}

/// What a thread remembers from one map to the next.
#[derive(Clone, Default)]
struct Kept {
    counts: Counts,
    puts: u64,
    marks: u64,
}

impl Counts {
    fn add(&mut self, more: &Counts) {
        (0..8).for_each(|word| self.sayings[word] += more.sayings[word]);
        (0..9).for_each(|kind| self.called[kind] += more.called[kind]);
        self.wrong += more.wrong;
    }
}

/// One thread: draws calls, makes them, and notes them with the stamps of their beginning and their end.
struct Worker<'a> {
    number: u64,
    options: &'a Options,
    shared: &'a Shared,
    connection: Box<dyn Connection + 'a>,
    draws: Draws,
    seen: HashMap<u64, u64>,
    memory: HashMap<u64, Said>,
    log: Vec<Event>,
    made: u64,
    life: usize,
    lives: usize,
    process: usize,
    helpers: Vec<usize>,
    kept: Kept,
    values_from: u64,
    wrong_before: u64,
    times: Arc<AtomicU64>,
}

impl<'a> Worker<'a> {
    fn new(number: u64, options: &'a Options, shared: &'a Shared, map: &'a dyn Opens, kept: Kept) -> Worker<'a> {
        let (mut connection, times) = (map.open_one(), Arc::new(AtomicU64::new(0)));
        if let Some(how) = options.broken.clone() {
            let (draws, keys, times) = (Draws::new(options.seed, 0, number), options.keys, times.clone());
            connection = Box::new(Broken { truly: connection, how, draws, keys, once: HashMap::new(), late: None, style: None, times });
        }
        let (seen, memory, wrong_before) = (HashMap::new(), HashMap::new(), kept.counts.wrong);
        Worker {
            number, options, shared, connection, draws: Draws(0), seen, memory, log: vec![], made: 0, life: 0, lives: 0, process: number as usize,
            helpers: vec![], kept, values_from: 1, wrong_before, times,
        }
    }

    /// The calls of a round. A process whose answer is unknown makes no further call.
    fn run(&mut self, task: &Task) -> Result<(Vec<Event>, Counts), Stop> {
        (self.made, self.life) = (0, 0);
        self.values_from = task.values_from;
        self.seen.clear();
        self.memory.clear();
        for key in (0..self.options.keys).filter(|key| self.options.void == "own" && !task.doubtful.contains(key)) {
            self.memory.insert(key, task.start.get(&key).copied().into());
        }
        self.draws = Draws::new(self.options.seed, task.round, self.number);
        POINTS.with(|points| *points.borrow_mut() = (self.options.yields, Draws(self.draws.0.wrapping_add(1))));
        task.missing.fetch_sub(1, SeqCst);
        for times in 0u64.. {
            if task.missing.load(SeqCst) == 0 {
                break;
            }
            if times % 1024 == 1023 {
                std::thread::yield_now();
            }
            std::hint::spin_loop();
        }
        self.lives = task.lives;
        while self.goes_on() {
            self.draw()?;
        }
        self.kept.counts.wrong = self.wrong_before + self.times.load(SeqCst);
        Ok((std::mem::take(&mut self.log), self.kept.counts))
    }

    /// Whether it may make one more call.
    fn goes_on(&self) -> bool {
        let is_running = |stream: &Stream| stream.state.load(SeqCst) == RUNNING && self.process < STREAM_PROCESSES;
        let has_calls = self.options.calls == 0 || self.made < self.options.calls;
        has_calls && self.life < self.lives && self.shared.stream.as_ref().map_or(true, is_running)
    }

    fn draw(&mut self) -> Result<(), Stop> {
        let mut place = self.draws.below(self.options.shares.iter().sum());
        let mut kind = Get;
        for each in KINDS {
            kind = each;
            if place < self.options.shares[each as usize] {
                break;
            }
            place -= self.options.shares[each as usize];
        }
        let key = self.draw_key(kind.writes());
        let value = self.values_from.wrapping_add(self.kept.puts * (self.options.threads + 1) + self.number);
        self.kept.puts += u64::from(kind.writes());
        let high = if kind == Scan { (key + self.draws.below(self.options.span)).min(self.options.keys - 1) } else { 0 };
        give_way();
        match kind {
            Scan if self.options.scan == "steps" => self.steps(key, high),
            Scan => self.make(kind, &[key, high]).map(|_| ()),
            PopFirst => self.make(kind, &[]).map(|_| ()),
            Put | PutIfAbsent => self.write(kind, &[key, value]),
            Del => self.write(kind, &[key]),
            Replace => self.write(kind, &[key, self.seen.get(&key).copied().unwrap_or(0), value]),
            _ => self.make(kind, &[key]).map(|_| ()),
        }
    }

    fn draw_key(&mut self, is_write: bool) -> u64 {
        let options = self.options;
        let is_hot = 0 < options.hot && options.hot < options.keys && self.draws.below(10) < 9;
        let key = self.draws.below(if is_hot { options.hot } else { options.keys });
        if options.void != "own" || !is_write {
            return key;
        }
        let own = key / options.threads * options.threads + self.number;
        if own < options.keys { own } else { self.number }
    }

    fn steps(&mut self, mut low: u64, high: u64) -> Result<(), Stop> {
        while low <= high && self.goes_on() {
            match self.make(Ceiling, &[low])? {
                Said::Pair(key, _) if key >= low && key < u64::MAX => low = key + 1,
                _ => break,
            }
        }
        Ok(())
    }

    fn write(&mut self, kind: Kind, words: &[u64]) -> Result<(), Stop> {
        let shared = self.shared;
        match shared.locks.get(words[0] as usize) {
            Some(lock) => self.make_locked(kind, words, &mut lock.lock().unwrap_or_else(|poisoned| poisoned.into_inner())),
            None => self.make(kind, words).map(|_| ()),
        }
    }

    /// A get and a call that writes its key, as one call. A cache may lose the key between the two.
    fn make_locked(&mut self, kind: Kind, words: &[u64], is_doubtful: &mut bool) -> Result<(), Stop> {
        let begin = self.begin(kind, words);
        let is_void = matches!(kind, Put | Del);
        let got = if is_void { ask(self.options, &mut *self.connection, Get, &words[..1])? } else { Said::Done };
        let got = if self.options.cache.is_some() { Said::Done } else { got };
        let said = ask(self.options, &mut *self.connection, kind, words)?;
        let end = self.shared.stamp();
        *is_doubtful |= said == Said::Unknown;
        self.made_one(kind, words, said, if *is_doubtful { Said::Done } else { got }, begin, end).map(|_| ())
    }

    /// Makes a call between two stamps, and notes it. A read may have said when its snapshot was taken: of several such moments the last one counts.
    fn make(&mut self, kind: Kind, words: &[u64]) -> Result<Said, Stop> {
        let begin = self.begin(kind, words);
        let stamps = kind.reads().then(|| (self.shared.stamps.clone(), vec![]));
        TAKEN.with(|taken| *taken.borrow_mut() = stamps);
        let said = ask(self.options, &mut *self.connection, kind, words);
        let mut drawn = TAKEN.with(|taken| taken.borrow_mut().take()).map_or(vec![], |(_, drawn)| drawn);
        let end = drawn.pop().unwrap_or_else(|| self.shared.stamp());
        for (stamp, stream) in drawn.into_iter().zip(self.shared.stream.iter().cycle()) {
            stream.put(stamp, Happening::default());
        }
        self.made_one(kind, words, said?, Said::Done, begin, end)
    }

    /// Draws the stamp before a call. If the call is already known, a stream has it from here on.
    fn begin(&self, kind: Kind, words: &[u64]) -> u64 {
        let begin = self.shared.stamp();
        if let (Some(stream), false) = (&self.shared.stream, kind.is_held(self.options)) {
            let call = Some(Call(kind.call(), words.to_vec()));
            let parts = vec![Part { process: self.process, call, answer: None, note: None }];
            stream.put(begin, Happening { parts, kind: kind.name(), said: None, is_left_out: false });
        }
        begin
    }

    fn made_one(&mut self, kind: Kind, words: &[u64], said: Said, got: Said, begin: u64, end: u64) -> Result<Said, Stop> {
        let is_void = matches!(kind, Put | Del);
        self.made += 1;
        self.kept.counts.sayings[said.word()] += 1;
        self.kept.counts.called[kind as usize] += 1;
        let known = if words.is_empty() || !kind.writes() { said.clone() } else { self.known(kind, words, &said, got) };
        if self.options.void == "told" && is_void && matches!(known, Said::Done | Said::Found) {
            let line = format!("{} said {}, and --void told wants the value before", kind.name(), SAYINGS[known.word()]);
            return fail(BAD_WORDS, line);
        }
        match said {
            _ if kind == Put => self.seen.insert(words[0], words[1]),
            Said::Done if kind == Replace => self.seen.insert(words[0], words[2]),
            Said::Told(value) => self.seen.insert(words[0], value),
            _ => None,
        };
        let (number, threads, marks) = (self.number, self.options.threads, &mut self.kept.marks);
        let mut fresh = || {
            *marks += 1;
            OWN_VALUES + (*marks - 1) * threads + number
        };
        let noted = recorded(self.options, kind, words, &known, &mut fresh);
        if let Some(stream) = &self.shared.stream {
            self.hand_over(stream, kind, said.word(), noted, [begin, end]);
        } else if let Some(noted) = noted {
            let is_open = noted.answer.is_none();
            self.log.extend(events_of([begin, end], (self.number as usize, self.life), kind.name(), said.word(), noted));
            self.life += usize::from(is_open);
        }
        Ok(said)
    }

    /// Returns what is known of the answer. If a put or del was done and does not report what it found, the get before it under the key's
    /// lock says so, or what the only writer of the key remembers.
    fn known(&mut self, kind: Kind, words: &[u64], said: &Said, got: Said) -> Said {
        let before = self.memory.get(&words[0]).cloned();
        let is_put = match (kind, said) {
            (Put, _) | (PutIfAbsent, Said::None) | (Replace, Said::Done) => true,
            (Replace, Said::Told(found)) => *found == words[1],
            _ => false,
        };
        if before.is_some() && *said != Said::Refused {
            if *said == Said::Unknown || kind == Replace && *said == Said::Found {
                self.memory.remove(&words[0]);
            } else if is_put {
                self.memory.insert(words[0], Said::Told(words[words.len() - 1]));
            } else if kind == Del {
                self.memory.insert(words[0], Said::None);
            }
        }
        match (kind, said) {
            (Put | Del, Said::Done) => before.unwrap_or(if got.tells() { got } else { Said::Done }),
            _ => said.clone(),
        }
    }

    /// Puts the events of a call that is over into the stream. A call that reports nothing is left out, or gets the answer `refused` if the
    /// stream has its invocation already. A call whose answer is unknown stays open, and its thread continues as another process.
    fn hand_over(&mut self, stream: &Stream, kind: Kind, word: usize, noted: Option<Noted>, stamps: [u64; 2]) {
        let is_held = kind.is_held(self.options);
        let is_left_out = noted.as_ref().is_some_and(|noted| noted.beside.len() > BESIDE);
        let mut ending = Happening { parts: vec![], kind: kind.name(), said: Some(word), is_left_out };
        let Some(noted) = noted.filter(|_| !is_left_out) else {
            if is_held {
                stream.put(stamps[0], Happening::default());
            } else {
                ending.parts.push(Part { process: self.process, call: None, answer: Some("\"refused\"".to_string()), note: None });
            }
            return stream.put(stamps[1], ending);
        };
        while self.helpers.len() < noted.beside.len() {
            self.helpers.push(stream.next_process());
        }
        let (is_open, mut calls) = (noted.answer.is_none(), vec![]);
        let processes = std::iter::once(self.process).chain(self.helpers.iter().copied());
        let first = Noted { beside: vec![], ..noted };
        for (process, one) in processes.zip(std::iter::once(first).chain(noted.beside)) {
            calls.push(Part { process, call: Some(one.call), answer: None, note: one.note });
            ending.parts.push(Part { process, call: None, answer: one.answer, note: None });
        }
        if is_held {
            stream.put(stamps[0], Happening { parts: calls, kind: kind.name(), said: None, is_left_out: false });
        }
        stream.put(stamps[1], ending);
        if is_open {
            self.process = stream.next_process();
        }
    }
}

type Outcome = Result<(Vec<Event>, Counts), Stop>;

/// A map of any kind, as a thread sees it.
trait Opens: Sync {
    fn open_one(&self) -> Box<dyn Connection + '_>;
}

impl<M: Map> Opens for M {
    fn open_one(&self) -> Box<dyn Connection + '_> {
        self.open()
    }
}

/// What a thread does: it opens a connection, and does one task after another. Each task sends what it has recorded, or why the run ends. At the end
/// the thread returns what it remembers for the next map.
fn serve(number: u64, options: &Options, shared: &Shared, map: &dyn Opens, kept: Kept, tasks: &Receiver<Task>, out: &Sender<Outcome>) -> Kept {
    let done = catch_unwind(AssertUnwindSafe(|| {
        let mut worker = Worker::new(number, options, shared, map, kept);
        let _ = out.send(Ok((vec![], Counts::default())));
        for task in tasks {
            let made = worker.run(&task);
            if let (Err(_), Some(stream)) = (&made, &shared.stream) {
                stream.state.store(FAILED, SeqCst);
            }
            if out.send(made).is_err() {
                break;
            }
        }
        worker.kept
    }));
    done.unwrap_or_else(|_| {
        if let Some(stream) = &shared.stream {
            stream.state.store(FAILED, SeqCst);
        }
        let _ = out.send(fail(BAD_WORDS, "a thread has panicked"));
        Kept::default()
    })
}

/// What the gets of all keys at rest reported: they are the last calls of a round, and say what the map holds.
#[derive(Default)]
struct Rest {
    events: Vec<Event>,
    contents: BTreeMap<u64, u64>,
}

impl Values {
    /// Begins with a map that holds these.
    fn begin(&mut self, held: &BTreeMap<u64, u64>) {
        self.from = self.from.max(held.values().max().map_or(1, |value| value.wrapping_add(1)));
    }

    /// A value of the driver's own.
    fn own(&mut self, options: &Options) -> u64 {
        self.puts += 1;
        self.from.max(1) + self.puts * (options.threads + 1) + options.threads
    }
}

impl Rest {
    /// Gets of all keys. If a get does not report the value, the key is written.
    fn of(connection: &mut dyn Connection, options: &Options, shared: &Shared, round: u64, values: &mut Values) -> Result<Rest, Stop> {
        let mut rest = Rest::default();
        let is_late = options.cache.as_ref().is_some_and(|how| how == "late");
        for key in 0..options.keys {
            let (mut kind, mut said) = (Get, rest.ask(connection, options, shared, Get, &[key])?);
            let mut holds = match said {
                Said::Told(value) => Some(value),
                _ => None,
            };
            let mut is_known = holds.is_some() || said == Said::None && !is_late;
            if !is_known && !matches!(said, Said::Refused | Said::Unknown) {
                let is_del = options.has_del && (options.cache.is_some() || (key + round) % 2 == 1);
                (kind, holds) = if is_del { (Del, None) } else { (Put, Some(values.own(options))) };
                let words = [key, holds.unwrap_or(0)];
                said = rest.ask(connection, options, shared, kind, if is_del { &words[..1] } else { &words })?;
                is_known = !matches!(said, Said::Refused | Said::Unknown);
            }
            if !is_known {
                let said = SAYINGS[said.word()];
                return fail(BAD_WORDS, format!("{} of {key} said {said} at rest: the run has to know what the key holds", kind.name()));
            }
            rest.contents.extend(holds.map(|value| (key, value)));
        }
        Ok(rest)
    }

    /// Asks a function at rest: again if it is refused, and a get also if nobody knows. The answer is noted unless it reports nothing.
    fn ask(
        &mut self, connection: &mut dyn Connection, options: &Options, shared: &Shared, kind: Kind, words: &[u64],
    ) -> Result<Said, Stop> {
        let (mut said, mut stamps) = (Said::Refused, [0, 0]);
        for _ in 0..1000 {
            stamps[0] = shared.stamp();
            said = ask(options, connection, kind, words)?;
            stamps[1] = shared.stamp();
            if said != Said::Refused && (said != Said::Unknown || kind != Get) {
                break;
            }
        }
        let called = if kind == Get { "rest" } else { kind.name() };
        if let Some(noted) = recorded(options, kind, words, &said, &mut || 0).filter(|noted| noted.answer.is_some()) {
            self.events.extend(events_of(stamps, (options.threads as usize, 0), called, said.word(), noted));
        }
        Ok(said)
    }
}

// Histories

/// An event of a history.
#[derive(Debug)]
struct One {
    process: usize,
    what: What,
    note: Option<String>,
    kind: &'static str,
    said: usize,
    is_answered: bool,
}

impl One {
    fn new(process: usize, what: What, note: Option<String>) -> One {
        One { process, what, note, kind: "", said: 0, is_answered: false }
    }

    fn call(&self) -> Option<&Call> {
        if let What::Invoke(call) = &self.what { Some(call) } else { None }
    }
}

/// Which processes there are: one for each thread, for each of its lives, and for each call on behalf of another.
type Who = (usize, usize);
const HELPS: usize = usize::MAX;

/// What one round recorded as a history, its events with their processes, and what its threads met.
#[derive(Default)]
struct Round {
    start: Arc<BTreeMap<u64, u64>>,
    events: Vec<One>,
    pending: Vec<Call>,
    met: HashSet<u64>,
    numbers: HashMap<Who, usize>,
    before: usize,
    calls: u64,
    overlap: u64,
    left_out: u64,
    at_start: &'static str,
    nobody: &'static str,
}

impl Round {
    /// Calls from earlier rounds that have no answer come first.
    fn new(mut noted: Vec<Event>, start: Arc<BTreeMap<u64, u64>>, before: &[Call], tally: &mut Tally) -> Round {
        let events = before.iter().cloned().enumerate().map(|(process, call)| One::new(process, What::Invoke(call), None)).collect();
        let (at_start, nobody) = ("at the start", "nobody");
        let mut round = Round { start, events, before: before.len(), at_start, nobody, ..Round::default() };
        noted.sort_by_key(|event| event.stamp);
        round.order(noted);
        round.measure(tally);
        round
    }

    fn number(&mut self, who: Who) -> usize {
        let next = self.before + self.numbers.len();
        *self.numbers.entry(who).or_insert(next)
    }

    /// The events of the threads. The further calls of a call get processes that are free. If there are none, or too many calls, the call is left out
    /// with its further calls.
    fn order(&mut self, noted: Vec<Event>) {
        let is_call = |event: &Event| matches!(event.what, What::Invoke(_));
        let own: HashSet<Who> = noted.iter().map(|event| (event.thread, event.life)).collect();
        let made = noted.iter().filter(|event| is_call(event)).count() + self.before;
        let (room, mut calls, mut made_up) = (PROCESSES.saturating_sub(self.before + own.len()), CALLS as usize - made, 0);
        let (mut free, mut helping, mut left_out) = (vec![], HashMap::new(), HashSet::new());
        for event in noted {
            let (who, is_call, count) = ((event.thread, event.life), is_call(&event), event.beside.len());
            if !is_call && left_out.remove(&who) {
                continue;
            }
            if is_call {
                while free.len() < count && made_up < room {
                    free.push((HELPS, made_up));
                    made_up += 1;
                }
                if count > free.len().min(calls) {
                    left_out.insert(who);
                    self.left_out += 1;
                    continue;
                }
                calls -= count;
                helping.insert(who, free.split_off(free.len() - count));
            }
            let process = self.number(who);
            let (kind, said) = (event.kind, event.said);
            self.events.push(One { process, what: event.what, note: event.note, kind, said, is_answered: false });
            let helpers = if is_call { helping[&who].clone() } else { helping.remove(&who).unwrap_or_default() };
            for (helper, one) in helpers.iter().zip(&*event.beside) {
                let process = self.number(*helper);
                self.events.push(match is_call {
                    true => One::new(process, What::Invoke(one.call.clone()), one.note.clone()),
                    false => One::new(process, What::Answer(one.answer.clone().unwrap_or_default()), None),
                });
            }
            if !is_call {
                free.extend(helpers);
            }
        }
    }

    /// How many calls were open when another began, at which keys two writers met, and which changes may still come. A call without an answer does
    /// not count as overlapped.
    fn measure(&mut self, tally: &mut Tally) {
        let mut last = HashMap::new();
        for number in 0..self.events.len() {
            let process = self.events[number].process;
            match self.events[number].what {
                What::Invoke(_) => drop(last.insert(process, number)),
                What::Answer(_) => self.events[last[&process]].is_answered = true,
            }
        }
        let mut open: BTreeMap<usize, (&One, &Call, u64)> = BTreeMap::new();
        for one in &self.events {
            let Some(call) = one.call() else {
                if let (Some((_, call, stored)), true) = (open.remove(&one.process), !one.kind.is_empty()) {
                    tally.end(one.kind, call.1[0], one.said, stored);
                }
                continue;
            };
            let mut stored = 0;
            if !one.kind.is_empty() {
                self.calls += 1;
                self.overlap += open.values().filter(|(other, ..)| !other.kind.is_empty() && other.is_answered).count() as u64;
                stored = tally.begin(one.kind, call.1[0]);
            }
            if writes_key(one.kind) && open.values().any(|(other, met, _)| writes_key(other.kind) && met.1[0] == call.1[0]) {
                self.met.insert(call.1[0]);
            }
            open.insert(one.process, (one, call, stored));
        }
        self.pending = open.into_values().map(|(_, call, _)| call).filter(|call| !self.tells(call)).cloned().collect();
    }

    /// Whether an answer reports what a call puts. Then the call was done.
    fn tells(&self, call: &Call) -> bool {
        let value = call.1.last().map_or(String::new(), u64::to_string);
        let in_pair = format!(",{value}]");
        call.0 != "remove"
            && self.events.iter().any(|one| matches!(&one.what, What::Answer(answer) if *answer == value || answer.contains(&in_pair)))
    }

    /// A history as a round, as far as the report needs it.
    fn read(text: &str) -> Round {
        let whole = Json::read(&mut &*text);
        let mut events = vec![];
        for event in whole.member("events").items() {
            let words: Vec<u64> = event.member("invoke").items().iter().skip(1).map(Json::number).collect();
            let name = if let Some(Json::Text(name)) = event.member("invoke").items().first() { name } else { "" };
            let what = match ["get", "insert", "remove", "replace", "scan"].into_iter().find(|own| *own == name) {
                Some(name) => What::Invoke(Call(name, words)),
                None => What::Answer(String::new()),
            };
            events.push(One::new(event.member("process").number() as usize, what, None));
        }
        let start = whole.member("start").items().iter().map(|pair| (pair.word(0), pair.word(1))).collect();
        let (at_start, nobody) = ("before these calls", "none of these calls");
        Round { start: Arc::new(start), events, at_start, nobody, ..Round::default() }
    }

    /// The calls that a follower still had, which the report lists under "invoked", by rising event, with the notes that the stream had of them.
    fn note(&mut self, report: &str, notes: &HashMap<u64, String>) {
        let report = Json::read(&mut &*report);
        let invoked = report.member("keys").items().iter().flat_map(|key| key.member("invoked").items());
        let invoked: BTreeSet<u64> = invoked.map(Json::number).collect();
        let mut calls: Vec<&mut One> = self.events.iter_mut().filter(|one| one.call().is_some()).collect();
        if calls.len() == invoked.len() {
            calls.iter_mut().zip(invoked).for_each(|(one, number)| one.note = notes.get(&number).cloned());
        }
    }

    /// Whether all its keys are below `keys` and all its calls have answers. Then it may be judged together with other rounds.
    fn is_apart(&self, keys: u64) -> bool {
        let calls = self.events.iter().filter_map(One::call);
        let is_own = self.events.iter().all(|one| match &one.what {
            What::Invoke(call) => call.1[0] < keys,
            What::Answer(answer) => pairs_of(answer).iter().flatten().all(|(key, _)| *key < keys),
        });
        is_own && 2 * calls.count() == self.events.len() && self.start.keys().all(|key| *key < keys)
    }

    /// Rounds as one history, in which the keys of each are moved up. It has an order if and only if each round has one, since linearizability is
    /// local: a call says nothing of keys that it does not touch (Herlihy and Wing, 1990).
    fn together(rounds: &[Waiting], keys: u64) -> String {
        let (mut start, mut texts) = (vec![], vec![]);
        for (number, each) in rounds.iter().enumerate() {
            let by = number as u64 * keys;
            let moved = |pairs: &[(u64, u64)]| pairs.iter().map(|(key, value)| (key + by, *value)).collect::<Vec<_>>();
            start.extend(each.round.start.iter().map(|(key, value)| (key + by, *value)));
            texts.extend(each.round.events.iter().map(|one| match &one.what {
                What::Invoke(call) => {
                    let mut words = call.1.clone();
                    words[0] += by;
                    if call.0 == "scan" {
                        words[1] = words[1].min(keys - 1) + by;
                    }
                    format!("{{\"invoke\":{},\"process\":{}}}", Call(call.0, words).text(), one.process)
                }
                What::Answer(answer) => {
                    let answer = pairs_of(answer).map_or(answer.clone(), |pairs| pairs_text(&moved(&pairs)));
                    format!("{{\"answer\":{answer},\"process\":{}}}", one.process)
                }
            }));
        }
        format!("{{\"events\":[{}],\"start\":{},\"version\":3}}\n", texts.join(","), pairs_text(&start))
    }

    fn text(&self) -> String {
        let mut version = if self.start.is_empty() { 1 } else { 2 };
        let mut texts = vec![];
        for one in &self.events {
            let (process, note) = (one.process, note_text(&one.note));
            version = if one.note.is_some() { 3 } else { version };
            texts.push(match &one.what {
                What::Invoke(call) => {
                    version = version.max(if call.0 == "replace" { 2 } else { 1 });
                    format!("{{\"invoke\":{},{note}\"process\":{process}}}", call.text())
                }
                What::Answer(answer) => {
                    let tells_less = matches!(answer.as_str(), "\"done\"" | "\"found\"" | "\"other\"");
                    version = if tells_less { 3 } else { version };
                    format!("{{\"answer\":{answer},\"process\":{process}}}")
                }
            });
        }
        let pairs: Vec<(u64, u64)> = self.start.iter().map(|(key, value)| (*key, *value)).collect();
        let start = if version > 1 { format!(",\"start\":{}", pairs_text(&pairs)) } else { String::new() };
        format!("{{\"events\":[{}]{start},\"version\":{version}}}\n", texts.join(","))
    }
}

/// The pairs of an answer, or none if it is not a list of pairs.
fn pairs_of(answer: &str) -> Option<Vec<(u64, u64)>> {
    match Json::read(&mut &*answer) {
        Json::List(pairs) => Some(pairs.iter().map(|pair| (pair.word(0), pair.word(1))).collect()),
        _ => None,
    }
}

fn note_text(note: &Option<String>) -> String {
    note.as_ref().map_or(String::new(), |note| format!("\"note\":\"{note}\","))
}

/// How often gets found a value, and how often a key was lost. A key is lost if nothing is found although a put of it was answered, and no delete has
/// begun since.
#[derive(Default)]
struct Tally {
    hits: u64,
    misses: u64,
    losses: u64,
    clock: u64,
    /// When a put ended, how many deletes are open, and when a delete began or ended last.
    stored: HashMap<u64, u64>,
    deletes: HashMap<u64, u64>,
    deleted: HashMap<u64, u64>,
}

impl Tally {
    /// Begins with a new map.
    fn forget(&mut self) {
        self.stored.clear();
        self.deletes.clear();
        self.deleted.clear();
    }

    /// When the call begins.
    fn begin(&mut self, kind: &str, key: u64) -> u64 {
        self.clock += 1;
        if matches!(kind, "del" | "pop_first") {
            self.stored.remove(&key);
            *self.deletes.entry(key).or_insert(0) += 1;
            self.deleted.insert(key, self.clock);
        }
        self.clock
    }

    fn end(&mut self, kind: &str, key: u64, said: usize, begun: u64) {
        let said = SAYINGS[said];
        self.clock += 1;
        self.hits += u64::from(kind == "get" && matches!(said, "told" | "found"));
        self.misses += u64::from(kind == "get" && said == "none");
        let looks = matches!(kind, "get" | "put" | "replace" | "put_if_absent" | "rest");
        if said == "none" && looks && self.stored.get(&key).is_some_and(|stored| *stored < begun) {
            self.losses += 1;
            self.stored.remove(&key);
        }
        let is_done = match kind {
            "put" => !matches!(said, "refused" | "unknown"),
            "put_if_absent" => said == "none",
            _ => kind == "replace" && said == "done",
        };
        let is_kept = self.deletes.get(&key).map_or(true, |count| *count == 0) && self.deleted.get(&key).map_or(true, |last| *last < begun);
        if matches!(kind, "del" | "pop_first") {
            self.deleted.insert(key, self.clock);
            if said != "unknown" {
                self.deletes.entry(key).and_modify(|count| *count -= 1);
            }
        } else if is_done && is_kept {
            self.stored.insert(key, self.clock);
        }
    }
}

impl Program {
    /// The verdict; if it is undecided, it is asked again at ten times the budget.
    fn ask_twice(&self, command: &str, text: &str) -> Result<(i32, String), Stop> {
        let asked = self.ask(command, text, self.budget)?;
        if asked.0 == UNDECIDED { self.ask(command, text, self.more()) } else { Ok(asked) }
    }

    /// The budget of a question that is asked again.
    fn more(&self) -> u64 {
        (self.budget * 10).min(1_000_000)
    }
}

/// The program `bench`.
#[cfg(not(potzendai_library))]
struct Program {
    path: String,
    budget: u64,
    has_judged: AtomicBool,
    has_told: AtomicBool,
}

#[cfg(not(potzendai_library))]
impl Program {
    fn new(options: &Options) -> Result<Program, Stop> {
        let beside = std::path::Path::new("bench").is_file();
        let named = options.bench.clone().or_else(|| std::env::var("POTZENDAI_BENCH").ok());
        let path = named.unwrap_or_else(|| if beside { "./bench" } else { "bench" }.to_string());
        let program = Program { path, budget: options.budget, has_judged: AtomicBool::new(false), has_told: AtomicBool::new(false) };
        if options.is_stream {
            program.ask("follow", "", options.budget)?;
        } else {
            program.ask("judge", "{\"events\":[],\"version\":1}\n", options.budget)?;
        }
        Ok(program)
    }

    /// Whether `judge`, or another command, was answered.
    fn has_answered(&self, command: &str) -> &AtomicBool {
        if command == "judge" { &self.has_judged } else { &self.has_told }
    }

    /// Returns the program that runs a command. After the repository's own `bench` has answered, this is the program that `bench` built last. For
    /// `bench` itself takes as long as ten rounds to see that nothing has changed.
    fn at(&self, command: &str) -> std::path::PathBuf {
        let script = std::path::PathBuf::from(&self.path);
        let is_script = script.file_name() == Some("bench".as_ref()) && self.path.contains('/');
        if !is_script || !self.has_answered(command).load(SeqCst) {
            return script;
        }
        let names = ["bench_judge", "bench_histories", "bench"].into_iter().skip(usize::from(command != "judge"));
        let built = names.map(|name| script.with_file_name(format!("crates/{name}/out/{name}"))).filter(|built| built.is_file());
        let built = built.filter(|built| built.with_file_name("built").is_file());
        built.max_by_key(|built| built.with_file_name("built").metadata().and_then(|found| found.modified()).ok()).unwrap_or(script)
    }

    /// Lets the program follow a stream that is written to it. It prints its verdict when it has one, which may be while the stream is still running.
    /// Then the run is over.
    fn follow(&self, stream: &Stream, hand: impl FnOnce(&mut dyn Write)) -> Result<(i32, String), Stop> {
        let told = |error: std::io::Error| self.told(&error);
        let mut asked = Command::new(self.at("follow"));
        asked.args(["follow", "--budget", &self.budget.to_string()]).stdin(Stdio::piped()).stdout(Stdio::piped());
        let mut child = asked.spawn().map_err(told)?;
        let (input, output) = (child.stdin.take(), child.stdout.take());
        let answer = std::thread::scope(|scope| {
            let reader = scope.spawn(move || {
                let mut answer = String::new();
                let read = output.map_or(Ok(0), |mut output| output.read_to_string(&mut answer));
                stream.end_calls();
                read.map(|_| answer)
            });
            if let Some(mut input) = input {
                hand(&mut input);
            }
            reader.join()
        });
        let answer = answer.unwrap_or(Ok(String::new())).map_err(told)?;
        self.checked("follow", child.wait().map_err(told)?, answer)
    }

    fn told(&self, error: &std::io::Error) -> Stop {
        Stop(BAD_FILE, format!("{}: {error}", self.path))
    }

    fn ask(&self, command: &str, text: &str, budget: u64) -> Result<(i32, String), Stop> {
        let told = |error: std::io::Error| self.told(&error);
        let mut asked = Command::new(self.at(command));
        asked.args([command, "--budget", &budget.to_string()]).stdin(Stdio::piped()).stdout(Stdio::piped());
        let mut child = asked.spawn().map_err(told)?;
        if let Some(mut input) = child.stdin.take() {
            let _ = input.write_all(text.as_bytes()); // where it has ended before it read all, its status says why
        }
        let mut answer = String::new();
        if let Some(mut output) = child.stdout.take() {
            output.read_to_string(&mut answer).map_err(told)?;
        }
        self.checked(command, child.wait().map_err(told)?, answer)
    }

    /// The status with its report, if the program has given one.
    fn checked(&self, command: &str, ended: ExitStatus, answer: String) -> Result<(i32, String), Stop> {
        match ended.code() {
            Some(status) if status <= UNDECIDED => {
                let verdict = format!("\"verdict\":\"{}\"}}", VERDICTS[status as usize]);
                if command == "draw" || command == "page" || answer.lines().next().unwrap_or("").ends_with(&verdict) {
                    self.has_answered(command).store(true, SeqCst);
                    return Ok((status, answer));
                }
                fail(BAD_FILE, format!("{} {command}: status {status} without its verdict", self.path))
            }
            Some(status) => fail(status.min(BAD_FILE), format!("{} {command}: status {status}", self.path)),
            None => fail(BAD_FILE, format!("{} {command}: was killed", self.path)),
        }
    }
}

/// The library.
#[cfg(potzendai_library)]
struct Program {
    budget: u64,
}

/// A stream that the library follows: opened, used and closed by one thread.
#[cfg(potzendai_library)]
#[repr(C)]
struct Follower {
    at: *mut std::ffi::c_void,
    is_open: bool,
}

#[cfg(potzendai_library)]
extern "C" {
    fn potzendai_judge(text: *const u8, size: usize, budget: u32, room: *mut u8, room_size: usize, length: *mut usize) -> u32;
    fn potzendai_explain(text: *const u8, size: usize, budget: u32, room: *mut u8, room_size: usize, length: *mut usize) -> u32;
    fn potzendai_draw_part(text: *const u8, size: usize, budget: u32, room: *mut u8, room_size: usize, length: *mut usize) -> u32;
    fn potzendai_page(text: *const u8, size: usize, budget: u32, room: *mut u8, room_size: usize, length: *mut usize) -> u32;
    fn potzendai_follow_open(follower: *mut Follower, budget: u32) -> u32;
    fn potzendai_follow_event(follower: *mut Follower, lines: *const u8, size: usize) -> u32;
    fn potzendai_follow_verdict(follower: *mut Follower, room: *mut u8, room_size: usize, length: *mut usize) -> u32;
    fn potzendai_follow_close(follower: *mut Follower);
}

#[cfg(potzendai_library)]
impl Write for Follower {
    fn write(&mut self, lines: &[u8]) -> std::io::Result<usize> {
        match unsafe { potzendai_follow_event(self, lines.as_ptr(), lines.len()) } {
            0 => Ok(lines.len()),
            _ => Err(std::io::ErrorKind::BrokenPipe.into()), // it has its verdict
        }
    }

    fn flush(&mut self) -> std::io::Result<()> {
        Ok(())
    }
}

#[cfg(potzendai_library)]
impl Program {
    fn new(options: &Options) -> Result<Program, Stop> {
        Ok(Program { budget: options.budget })
    }

    /// What a call answers, and its text. It is called again with more room if it needs more.
    fn answered(command: &str, call: impl Fn(*mut u8, usize, *mut usize) -> u32) -> Result<(i32, String), Stop> {
        let mut length = 32767;
        loop {
            let mut room = vec![0; length + 1];
            let status = call(room.as_mut_ptr(), room.len(), &mut length) as i32;
            if length >= room.len() {
                continue;
            }
            let answer = String::from_utf8_lossy(&room[..length]).into_owned();
            return if status > UNDECIDED { fail(status, format!("{command}: {}", answer.trim_end())) } else { Ok((status, answer)) };
        }
    }

    fn ask(&self, command: &str, text: &str, budget: u64) -> Result<(i32, String), Stop> {
        let question = match command {
            "judge" => potzendai_judge,
            "explain" => potzendai_explain,
            "page" => potzendai_page,
            _ => potzendai_draw_part,
        };
        let (text, budget) = (text.as_bytes(), budget as u32);
        Program::answered(command, |room, size, length| unsafe { question(text.as_ptr(), text.len(), budget, room, size, length) })
    }

    /// Lets the library follow a stream that is passed to it.
    fn follow(&self, stream: &Stream, hand: impl FnOnce(&mut dyn Write)) -> Result<(i32, String), Stop> {
        let mut follower = Follower { at: std::ptr::null_mut(), is_open: false };
        if unsafe { potzendai_follow_open(&mut follower, self.budget as u32) } != 0 {
            return fail(MEMORY, "memory: no follower");
        }
        hand(&mut follower);
        stream.end_calls();
        let at: *mut Follower = &mut follower;
        let answer = Program::answered("follow", |room, size, length| unsafe { potzendai_follow_verdict(at, room, size, length) });
        unsafe { potzendai_follow_close(at) };
        answer
    }
}

// A run

/// What is counted, up to the end of a round.
#[derive(Clone, Default)]
struct Counted {
    sayings: [u64; 8],
    called: [u64; 9],
    rounds: u64,
    calls: u64,
    overlap: u64,
    left_out: u64,
    hits: u64,
    misses: u64,
    losses: u64,
}

/// A round that is not judged yet.
struct Waiting {
    round: Round,
    counted: Counted,
}

/// Rounds at a new map. Each begins with what the one before has left: the pairs, and calls without an answer that may still take effect.
struct Run {
    options: Options,
    counted: Counted,
    met: HashSet<u64>,
    began: Instant,
    undecided: u64,
    helped: u64, // calls on behalf of others
    wrong_times: u64, // how often a broken map went wrong
    tally: Tally,
    waiting: Vec<Waiting>,
    waits_since: Instant,
    notes: HashMap<u64, String>,
    events: u64, // of a stream
    cut: Vec<String>,
    failed: Option<Round>,
    report: String,
    kept: Option<String>, // the stream so far, while it is no longer than is kept
}

/// The state of a run between two rounds: what the map holds, and calls that may still take effect. If a round ends with reads of the map that is
/// opened again, it also has the events of that round.
#[derive(Default)]
struct At {
    start: Arc<BTreeMap<u64, u64>>,
    pending: Vec<Call>,
    is_begun: bool,
    rounds: u64,
    events: Option<Vec<Event>>,
    values: Values,
}

/// Each put has a value of its own, which was not in the map before. This is the number from which these values begin, and how many puts are the
/// driver's own.
#[derive(Clone, Copy, Default)]
struct Values {
    from: u64,
    puts: u64,
}

/// Why the threads of a map end.
enum Next {
    End,
    NewMap,
    Reopened,
}

/// The channels by which a thread gets its tasks and sends what it has recorded.
type Ends = (Sender<Task>, Receiver<Outcome>);

impl Run {
    /// Rounds from this number on, until one has no order, or the time is over; or one stream.
    fn new<M: Map>(options: &Options, make: &dyn Fn() -> M, program: Option<&Program>, number: u64) -> Result<Run, Stop> {
        HAS_POINTS.store(false, SeqCst);
        let locks = if options.void == "lock" { (0..options.keys).map(|_| Mutex::new(false)).collect() } else { vec![] };
        let stream = options.is_stream.then(|| Stream::new(options.threads));
        let shared = Shared { stamps: Arc::new(AtomicU64::new(0)), locks, stream };
        let mut run = Run {
            options: options.clone(), counted: Counted::default(), met: HashSet::new(), began: Instant::now(), undecided: 0, helped: 0,
            wrong_times: 0, tally: Tally::default(), waiting: vec![], waits_since: Instant::now(), notes: HashMap::new(), events: 0,
            cut: vec![], failed: None, report: String::new(), kept: program.map(|_| String::new()),
        };
        let (mut map, mut kept, mut at) = (make(), vec![Kept::default(); options.threads as usize], At::default());
        loop {
            match run.use_map(&map, &shared, program, number, &mut kept, &mut at)? {
                Next::End => return Ok(run),
                Next::NewMap => (map, at) = (make(), At { values: at.values, ..At::default() }),
                Next::Reopened => match catch_unwind(AssertUnwindSafe(|| map.reopen())) {
                    Ok(Some(opened)) => map = opened,
                    Ok(None) => return fail(BAD_WORDS, format!("{}: reopen returned nothing; it has to return the map", run.options.name)),
                    Err(_) => return fail(BAD_WORDS, format!("{}: reopen has panicked", run.options.name)),
                },
            }
        }
    }

    /// The threads of one map.
    fn use_map(
        &mut self, map: &dyn Opens, shared: &Shared, program: Option<&Program>, number: u64, kept: &mut Vec<Kept>, at: &mut At,
    ) -> Result<Next, Stop> {
        let options = self.options.clone();
        std::thread::scope(|scope| {
            let (mut threads, mut handles) = (vec![], vec![]);
            for (number, own) in kept.drain(..).enumerate() {
                let ((tasks, inbox), (out, outbox)) = (channel(), channel());
                let options = &options;
                handles.push(scope.spawn(move || serve(number as u64, options, shared, map, own, &inbox, &out)));
                threads.push((tasks, outbox));
            }
            let next = match &shared.stream {
                Some(stream) => self.follow(map, shared, stream, &threads, program).map(|()| Next::End),
                None => self.rounds_of(map, shared, &threads, program, number, at),
            };
            drop(threads);
            kept.extend(handles.into_iter().map(|handle| handle.join().unwrap_or_default()));
            next
        })
    }

    /// One stream, until it has no order, or the time is over.
    fn follow(
        &mut self, map: &dyn Opens, shared: &Shared, stream: &Stream, threads: &[Ends], program: Option<&Program>,
    ) -> Result<(), Stop> {
        let (options, began) = (self.options.clone(), self.began);
        let named = |stop: Stop| Stop(stop.0, format!("{}: {}", options.name, stop.1));
        for (_, outbox) in threads {
            outbox.recv().unwrap_or_else(|_| fail(BAD_WORDS, "a thread has ended")).map_err(named)?;
        }
        let mut values = Values::default();
        let left = Rest::of(&mut *map.open_one(), &options, shared, 0, &mut values).map_err(named)?;
        values.begin(&left.contents);
        let (start, missing) = (Arc::new(left.contents), Arc::new(AtomicUsize::new(threads.len())));
        let task = Task {
            round: 0, lives: STREAM_PROCESSES, start: start.clone(), doubtful: Arc::new(HashSet::new()), missing,
            values_from: values.from,
        };
        stream.taken.store(shared.stamps.load(SeqCst), SeqCst);
        let (ended, written) = std::thread::scope(|scope| {
            let run = &mut *self;
            let writer = scope.spawn(move || {
                let written = run.write(shared, stream, &start, program);
                if written.is_err() {
                    stream.state.store(FAILED, SeqCst);
                }
                written
            });
            for (tasks, _) in threads {
                let _ = tasks.send(task.clone());
            }
            let mut ended: Vec<Option<Outcome>> = threads.iter().map(|_| None).collect();
            while stream.state.load(SeqCst) == RUNNING && began.elapsed().as_secs() < options.seconds && ended.iter().any(Option::is_none) {
                std::thread::sleep(Duration::from_millis(10));
                for (one, (_, outbox)) in ended.iter_mut().zip(threads).filter(|(one, _)| one.is_none()) {
                    *one = match outbox.try_recv() {
                        Err(TryRecvError::Empty) => None,
                        other => Some(other.unwrap_or_else(|_| fail(BAD_WORDS, "a thread has ended"))),
                    };
                }
            }
            stream.end_calls();
            for (one, (_, outbox)) in ended.iter_mut().zip(threads).filter(|(one, _)| one.is_none()) {
                *one = Some(outbox.recv().unwrap_or_else(|_| fail(BAD_WORDS, "a thread has ended")));
            }
            stream.is_ended.store(true, SeqCst);
            (ended, writer.join().unwrap_or_else(|_| fail(BAD_FILE, "a thread has panicked")))
        });
        let mut counts = Counts::default();
        for one in ended.into_iter().flatten() {
            counts.add(&one.map_err(named)?.1);
        }
        (self.counted.called, self.wrong_times) = (counts.called, counts.wrong);
        let (status, report) = written?;
        self.conclude(stream, status, report)
    }

    /// What the verdict on a stream says. A stream that was cut off gets no yes.
    fn conclude(&mut self, stream: &Stream, status: i32, report: String) -> Result<(), Stop> {
        let counts_all = self.options.out == "-" || report.starts_with(&format!("{{\"calls\":{},", self.counted.calls + self.helped));
        match status {
            YES if stream.state.load(SeqCst) == FAILED || !counts_all => {
                return fail(BAD_FILE, format!("{}: the stream was cut off", self.options.name));
            }
            NO => self.failed = Some(Round::read("")),
            UNDECIDED => self.undecided += 1,
            _ => (),
        }
        self.report = report;
        if stream.next_process() >= STREAM_PROCESSES {
            self.cut.push(format!("{}: calls without an answer leave no room for others", self.options.name));
        }
        Ok(())
    }

    /// Writes each event in its turn, and asks for the verdict at the end.
    fn write(
        &mut self, shared: &Shared, stream: &Stream, start: &BTreeMap<u64, u64>, program: Option<&Program>,
    ) -> Result<(i32, String), Stop> {
        let pairs: Vec<(u64, u64)> = start.iter().map(|(key, value)| (*key, *value)).collect();
        let first = format!("{{\"start\":{},\"version\":3}}\n", pairs_text(&pairs));
        let hand = |out: &mut dyn Write| self.hand_all(shared, stream, first, out);
        match program {
            Some(program) => program.follow(stream, hand),
            None => {
                hand(&mut std::io::stdout());
                Ok((YES, String::new()))
            }
        }
    }

    /// If a write fails, the stream has failed: the program that follows it has ended, and the verdict says why.
    fn hand_all(&mut self, shared: &Shared, stream: &Stream, mut text: String, out: &mut dyn Write) {
        let (mut open, mut writers, mut times) = (HashMap::new(), HashMap::new(), 0);
        loop {
            let (is_ended, next) = (stream.is_ended.load(SeqCst), stream.taken.load(SeqCst));
            let what = stream.slot(next).take();
            times = if what.is_some() { 0 } else { times + 1 };
            let is_cut = times > 0 && is_ended && next != shared.stamps.load(SeqCst);
            if let Some(what) = what {
                stream.taken.store(next + 1, SeqCst);
                self.take_happening(what, &mut open, &mut writers, &mut text);
            }
            if text.len() >= BATCH || times > 0 {
                self.keep(&text);
            }
            if is_cut || (text.len() >= BATCH || times > 0) && out.write_all(text.as_bytes()).and_then(|()| out.flush()).is_err() {
                return stream.state.store(FAILED, SeqCst);
            }
            if text.len() >= BATCH || times > 0 {
                text.clear();
                self.progress();
            }
            if times > 0 && is_ended {
                return;
            } else if times > 0 {
                rest_some(times);
            }
        }
    }

    /// Stores lines of the stream, for a file. If there are too many, nothing of the stream is stored any more.
    fn keep(&mut self, lines: &str) {
        self.kept = self.kept.take().filter(|kept| kept.len() + lines.len() <= KEPT);
        if let Some(kept) = &mut self.kept {
            kept.push_str(lines);
        }
    }

    /// The lines of events, and the counts, as for a round. But nothing is stored of calls that are over. A call without an answer is over too:
    /// nobody waits for it.
    fn take_happening(
        &mut self, what: Happening, open: &mut HashMap<usize, (Call, u64)>, writers: &mut HashMap<u64, u64>, text: &mut String,
    ) {
        for (i, part) in what.parts.into_iter().enumerate() {
            let (process, is_first) = (part.process, i == 0);
            if let Some(call) = &part.call {
                let _ = writeln!(text, "{{\"invoke\":{},{}\"process\":{process}}}", call.text(), note_text(&part.note));
                self.helped += u64::from(!is_first);
                self.notes.extend(part.note.map(|note| (self.events, note)));
            } else if let Some(answer) = &part.answer {
                let _ = writeln!(text, "{{\"answer\":{answer},\"process\":{process}}}");
            }
            self.events += u64::from(part.call.is_some() || part.answer.is_some());
            match part.call {
                Some(call) if is_first => {
                    self.counted.calls += 1;
                    self.counted.overlap += open.len() as u64;
                    if writes_key(what.kind) {
                        let count = writers.entry(call.1[0]).or_insert(0);
                        *count += 1;
                        self.met.extend((*count > 1).then_some(call.1[0]));
                    }
                    let stored = self.tally.begin(what.kind, call.1[0]);
                    open.insert(process, (call, stored));
                }
                None if is_first => {
                    let Some((call, stored)) = open.remove(&process) else { continue };
                    self.tally.end(what.kind, call.1[0], what.said.unwrap_or(0), stored);
                    if writes_key(what.kind) && part.answer.is_some() {
                        let count = writers.entry(call.1[0]).or_insert(1);
                        *count -= 1;
                        if *count == 0 {
                            writers.remove(&call.1[0]);
                        }
                    }
                }
                _ => (),
            }
        }
        if self.notes.len() as u64 > 2 * NOTES {
            let events = self.events;
            self.notes.retain(|number, _| number + NOTES >= events);
        }
        self.counted.left_out += u64::from(what.is_left_out);
        if let Some(word) = what.said {
            self.counted.sayings[word] += 1;
        }
    }

    /// Rounds of one map. If the map is to be opened again, it is one round.
    fn rounds_of(
        &mut self, map: &dyn Opens, shared: &Shared, threads: &[Ends], program: Option<&Program>, number: u64, at: &mut At,
    ) -> Result<Next, Stop> {
        let options = self.options.clone();
        let named = |stop: Stop| Stop(stop.0, format!("{}: {}", options.name, stop.1));
        let taken = || -> Vec<Outcome> {
            threads.iter().map(|(_, outbox)| outbox.recv().unwrap_or_else(|_| fail(BAD_WORDS, "a thread has ended"))).collect()
        };
        for one in taken() {
            one.map_err(named)?;
        }
        let mut connection = map.open_one();
        if let Some(events) = at.events.take() {
            self.end_round(&mut *connection, shared, events, program, at).map_err(named)?;
        } else if !at.is_begun {
            at.start = Arc::new(Rest::of(&mut *connection, &options, shared, 0, &mut at.values).map_err(named)?.contents);
            at.values.begin(&at.start);
            at.is_begun = true;
            self.tally.forget();
        }
        while self.failed.is_none() && !self.is_over() {
            if options.fresh > 0 && at.rounds == options.fresh {
                return Ok(Next::NewMap);
            }
            let lives = (PROCESSES - 1 - at.pending.len()) / threads.len();
            if lives == 0 {
                let (name, count) = (&options.name, at.pending.len());
                self.cut.push(format!("{name}: calls without an answer leave no room for others: {count}"));
                break;
            }
            at.rounds += 1;
            let doubtful = Arc::new(at.pending.iter().map(|call: &Call| call.1[0]).collect());
            let missing = Arc::new(AtomicUsize::new(threads.len()));
            let task = Task { round: number + self.counted.rounds, lives, start: at.start.clone(), doubtful, missing, values_from: at.values.from };
            for (tasks, _) in threads {
                let _ = tasks.send(task.clone());
            }
            let (mut events, mut counts) = (vec![], Counts::default());
            for one in taken() {
                let (log, more) = one.map_err(named)?;
                events.extend(log);
                counts.add(&more);
            }
            (self.counted.sayings, self.counted.called, self.wrong_times) = (counts.sayings, counts.called, counts.wrong);
            if options.is_reopened {
                at.events = Some(events);
                return Ok(Next::Reopened);
            }
            self.end_round(&mut *connection, shared, events, program, at).map_err(named)?;
        }
        program.map_or(Ok(()), |program| self.judge_waiting(program))?;
        Ok(Next::End)
    }

    /// Gets of all keys are the last calls of a round, and the start of the next.
    fn end_round(
        &mut self, connection: &mut dyn Connection, shared: &Shared, mut events: Vec<Event>, program: Option<&Program>, at: &mut At,
    ) -> Result<(), Stop> {
        let left = Rest::of(connection, &self.options, shared, self.counted.rounds, &mut at.values)?;
        events.extend(left.events);
        let round = Round::new(events, at.start.clone(), &at.pending, &mut self.tally);
        (at.start, at.pending) = (Arc::new(left.contents), round.pending.clone());
        self.take(round, program)
    }

    fn take(&mut self, round: Round, program: Option<&Program>) -> Result<(), Stop> {
        self.counted.rounds += 1;
        self.counted.calls += round.calls;
        self.counted.overlap += round.overlap;
        self.counted.left_out += round.left_out;
        self.met.extend(&round.met);
        let Some(program) = program else {
            let written = std::io::stdout().write_all(round.text().as_bytes());
            return written.or_else(|_| fail(BAD_FILE, "standard output: a history was not written"));
        };
        let (calls, keys) = (round.events.len() / 2, self.options.keys);
        let is_apart = calls <= BATCH_CALLS && round.is_apart(keys);
        let waiting_calls: usize = self.waiting.iter().map(|waiting| waiting.round.events.len() / 2).sum();
        if !is_apart || calls + waiting_calls > CALLS as usize {
            self.judge_waiting(program)?;
        }
        if self.failed.is_some() {
            return Ok(());
        }
        if self.waiting.is_empty() {
            self.waits_since = Instant::now();
        }
        let (hits, misses, losses) = (self.tally.hits, self.tally.misses, self.tally.losses);
        self.waiting.push(Waiting { round, counted: Counted { hits, misses, losses, ..self.counted.clone() } });
        let is_late = self.waits_since.elapsed() > Duration::from_secs(1);
        if self.waiting.len() == BATCH_ROUNDS || is_late || self.counted.rounds == 1 || !is_apart {
            self.judge_waiting(program)?;
        }
        Ok(())
    }

    /// Judges the rounds that wait: first all together, and each on its own if that is not a yes. After a no, only what was counted up to its end
    /// counts.
    fn judge_waiting(&mut self, program: &Program) -> Result<(), Stop> {
        let all = std::mem::take(&mut self.waiting);
        let is_batch = all.len() > 1;
        if is_batch && program.ask("judge", &Round::together(&all, self.options.keys), program.budget)?.0 == YES {
            return Ok(());
        }
        for Waiting { round, counted } in all {
            match program.ask_twice("judge", &round.text())?.0 {
                NO => {
                    (self.tally.hits, self.tally.misses, self.tally.losses) = (counted.hits, counted.misses, counted.losses);
                    (self.failed, self.counted) = (Some(round), counted);
                    break;
                }
                UNDECIDED => self.undecided += 1,
                _ => (),
            }
        }
        Ok(())
    }

    /// At least one round is made.
    fn is_over(&mut self) -> bool {
        self.progress();
        let is_late = self.began.elapsed().as_secs_f64() >= self.options.seconds as f64;
        self.counted.rounds > 0 && (self.options.rounds > 0 && self.counted.rounds >= self.options.rounds || is_late)
    }

    /// Each second a line on a terminal says how far the run is.
    fn progress(&mut self) {
        let seconds = self.began.elapsed().as_secs_f64();
        if self.options.shows && self.options.shown.elapsed() > Duration::from_secs(1) && self.counted.calls > 0 {
            self.options.shown = Instant::now();
            let (calls, all) = (self.counted.calls as f64, self.counted.sayings.iter().sum::<u64>().max(1) as f64);
            tell(&format!(
                "{}, {:.0} a second, overlap {:.1} a call, {:.1}% refused, two writers met on {} of {}",
                counted(self.counted.calls, "call"), calls / seconds, self.counted.overlap as f64 / calls,
                100.0 * self.counted.sayings[5] as f64 / all, self.met.len(), counted(self.options.keys, "key")
            ));
        }
    }

    /// The verdict, and the counts on which it is based.
    fn summary(&self, verdict: &str) -> String {
        let said: Vec<String> =
            self.counted.sayings.iter().zip(SAYINGS).filter(|(count, _)| **count > 0).map(|(count, word)| format!("{count} {word}")).collect();
        let undecided = if self.undecided > 0 { format!("; {} undecided", self.undecided) } else { String::new() };
        let rounds = if self.options.is_stream { String::new() } else { counted(self.counted.rounds, "round") + ", " };
        let mut parts = vec![format!(
            "{verdict}: {rounds}{} in {:.1} seconds, overlap {:.2} a call: {}{undecided}",
            counted(self.counted.calls, "call"), self.began.elapsed().as_secs_f64(),
            self.counted.overlap as f64 / self.counted.calls.max(1) as f64, said.join(", ")
        )];
        let tally = &self.tally;
        if self.is_late() {
            // such a miss may come before a write that has not appeared yet; it is no loss
            parts.push([counted(tally.hits, "hit"), counted(self.counted.called[Get as usize] - tally.hits, "miss")].join(", "));
        } else if self.options.cache.is_some() {
            parts.push([counted(tally.hits, "hit"), counted(tally.misses, "miss"), counted(tally.losses, "loss")].join(", "));
        }
        if !verdict.starts_with("no") || verdict == "not judged" {
            parts.extend(self.cautions());
        }
        parts.join("; ")
    }

    fn is_late(&self) -> bool {
        self.options.cache.as_ref().is_some_and(|how| how == "late")
    }

    /// Why a yes of this run says little.
    fn cautions(&self) -> Vec<String> {
        let (mut said, tally, is_cache, gets) = (vec![], &self.tally, self.options.cache.is_some(), self.counted.called[Get as usize]);
        if 2 * self.counted.sayings[Said::Refused.word()] > self.counted.sayings.iter().sum() {
            said.push("most calls were refused: a yes says little".to_string());
        }
        if tally.hits == 0 && is_cache {
            said.push("no get hit: a yes says nothing".to_string());
        } else if tally.hits == 0 && gets > 0 {
            said.push("no get found a value: a yes says little".to_string());
        } else if is_cache && 20 * tally.hits < gets {
            said.push(format!("{} in {} gets: a yes says little", counted(tally.hits, "hit"), grouped(gets)));
        }
        if is_cache && tally.losses == 0 && !self.is_late() {
            said.push("no key was lost: eviction was not tested".to_string());
        }
        if self.counted.left_out > 0 {
            said.push(format!("{} without some of the keys left out", counted(self.counted.left_out, "scan")));
        }
        if (self.counted.overlap as f64) < 0.05 * self.counted.calls as f64 {
            let rest = "the threads hardly met, and a yes says little: call point() in the map, and run with --yield 200";
            said.push(format!("overlap below 0.05: {rest}"));
        }
        if self.options.yields > 0 && !HAS_POINTS.load(SeqCst) {
            said.push("--yield acted only between calls, since the map called no point()".to_string());
        }
        said
    }
}

/// A number with its noun.
fn counted(count: u64, noun: &str) -> String {
    format!("{count} {noun}{}", if count == 1 { "" } else if noun.ends_with('s') { "es" } else { "s" })
}

/// A number with commas.
fn grouped(number: u64) -> String {
    if number < 1000 { number.to_string() } else { format!("{},{:03}", grouped(number / 1000), number % 1000) }
}

/// The smallest run that failed, of some tries with half of the calls or keys, or a thread less. Threads interleave as they will. If calls have no
/// answer, nothing smaller is tried, since they may still take effect.
fn smaller<M: Map>(run: &Run, make: &dyn Fn() -> M, program: &Program) -> Result<Option<Run>, Stop> {
    let (mut best, began, mut tries, mut how) = (None, Instant::now(), 0, 0);
    let mut options = run.options.clone();
    while how < 3 && run.counted.sayings[Said::Unknown.word()] == 0 {
        let less = options.less(how);
        how += 1;
        for _ in 0..if less.is_some() { 6 } else { 0 } {
            tries += 1;
            if tries > 60 || began.elapsed() > Duration::from_secs(5) {
                break;
            }
            let again = Run::new(less.as_ref().unwrap_or(&options), make, Some(program), run.counted.rounds - 1)?;
            if again.failed.is_some() {
                options = again.options.clone();
                (best, how) = (Some(again), 0);
                break;
            }
        }
    }
    Ok(best)
}

// A no in words

/// A JSON value of a report.
#[derive(Debug, PartialEq)]
enum Json {
    Null,
    Bool(bool),
    Number(u64),
    Text(String),
    List(Vec<Json>),
    Object(Vec<(String, Json)>),
}

impl Json {
    /// Reads a value from the front of a compact text that the program wrote, and leaves what is after it.
    fn read(text: &mut &str) -> Json {
        let first = text.as_bytes().first().copied().unwrap_or(b'n');
        match first {
            b'{' | b'[' => {
                let (mut members, mut items) = (vec![], vec![]);
                *text = &text[1..];
                while !text.is_empty() && !text.starts_with(['}', ']']) {
                    let value = Json::read(text);
                    match value {
                        Json::Text(name) if first == b'{' => {
                            *text = &text[1..];
                            members.push((name, Json::read(text)));
                        }
                        other => items.push(other),
                    }
                    *text = text.strip_prefix(',').unwrap_or(text);
                }
                *text = text.get(1..).unwrap_or("");
                if first == b'{' { Json::Object(members) } else { Json::List(items) }
            }
            b'"' => {
                let end = text[1..].find('"').map_or(text.len(), |at| at + 1);
                let read = text[1..end].to_string();
                *text = text.get(end + 1..).unwrap_or("");
                Json::Text(read)
            }
            b'0'..=b'9' => {
                let end = text.find(|c: char| !c.is_ascii_digit()).unwrap_or(text.len());
                let read = text[..end].parse().unwrap_or(0);
                *text = &text[end..];
                Json::Number(read)
            }
            b't' | b'f' => {
                *text = text.get(if first == b't' { 4 } else { 5 }..).unwrap_or("");
                Json::Bool(first == b't')
            }
            _ => {
                *text = text.get(4..).unwrap_or("");
                Json::Null
            }
        }
    }

    fn find(&self, name: &str) -> Option<&Json> {
        let Json::Object(members) = self else { return None };
        members.iter().find(|(own, _)| own == name).map(|(_, value)| value)
    }

    fn has(&self, name: &str) -> bool {
        self.find(name).is_some()
    }

    fn member(&self, name: &str) -> &Json {
        self.find(name).unwrap_or(&Json::Null)
    }

    fn items(&self) -> &[Json] {
        if let Json::List(items) = self { items } else { &[] }
    }

    fn number(&self) -> u64 {
        if let Json::Number(number) = self { *number } else { 0 }
    }

    fn word(&self, at: usize) -> u64 {
        self.items().get(at).map_or(0, Json::number)
    }
}

fn said_answer(answer: &Json) -> String {
    match answer {
        Json::List(pairs) if pairs.is_empty() => "nothing".to_string(),
        Json::List(pairs) => pairs.iter().map(|pair| format!("{}: {}", pair.word(0), pair.word(1))).collect::<Vec<_>>().join(", "),
        Json::Number(value) => value.to_string(),
        Json::Text(word) => match word.as_str() {
            "done" => "that it was done",
            "found" => "that there was a value",
            "other" => "another value",
            "refused" => "that it was refused",
            _ => "nothing",
        }
        .to_string(),
        _ => "none".to_string(),
    }
}

/// What a call was answered, and who put that, or that its answer is left out of the report.
fn said_answered(round: &Round, answer: &Json) -> String {
    match answer {
        Json::Text(word) if word == "left out" => ", whatever its answer".to_string(),
        _ => format!(", answered {}{}", said_answer(answer), said_writer(round, answer)),
    }
}

/// The first line of a report, with `..` in place of a long list of calls.
fn said_verdict(line: &str) -> String {
    let Some((before, from)) = line.split_once("\"calls\":[") else {
        return line.to_string();
    };
    match from.split_once(']') {
        Some((calls, behind)) if calls.len() >= 80 => format!("{before}\"calls\":[..]{behind}"),
        _ => line.to_string(),
    }
}

fn said_call(call: &Json) -> String {
    let name = if let Some(Json::Text(name)) = call.items().first() { name } else { "" };
    match name {
        "insert" => format!("put {} at {}", call.word(2), call.word(1)),
        "replace" => format!("replace {} at {} by {}", call.word(2), call.word(1), call.word(3)),
        "scan" => format!("scan from {} to {}", call.word(1), call.word(2)),
        _ => format!("{name} {}", call.word(1)),
    }
}

/// The events of a call: that of its invocation by a process, and that of its answer if it has one.
fn said_events(round: &Round, invoked: u64, process: u64) -> String {
    let mut behind = round.events.iter().enumerate().skip(invoked as usize + 1);
    match behind.find(|(_, one)| one.process as u64 == process) {
        Some((answer, _)) => format!("events {invoked} to {answer}"),
        None => format!("event {invoked} on"),
    }
}

/// The call of an event as it was made, if the history has another one.
fn note_of(round: &Round, number: u64) -> Option<&String> {
    round.events.get(number as usize)?.note.as_ref()
}

/// A call as it was made.
fn said_made(round: &Round, number: u64, call: String) -> String {
    let said = |note: &String| note.split(':').next().unwrap_or("").replace("answered none", "which found none") + ",";
    note_of(round, number).map_or(call, said)
}

/// The event of a call's answer, or the end if it has none.
fn last_event(round: &Round, invoked: usize) -> usize {
    let process = round.events[invoked].process;
    (invoked + 1..round.events.len()).find(|number| round.events[*number].process == process).unwrap_or(round.events.len())
}

/// The other calls that were open on the keys of these.
fn said_open(round: &Round, shown: &[u64], numbers: &[u64]) -> Option<String> {
    let mut said = vec![];
    for (number, one) in round.events.iter().enumerate() {
        let Some(call) = one.call().filter(|_| !shown.contains(&(number as u64))) else { continue };
        let is_met = |of: usize, other: &Call| call.meets(other) && number < last_event(round, of) && of < last_event(round, number);
        if numbers.iter().any(|of| round.events.get(*of as usize).and_then(One::call).is_some_and(|other| is_met(*of as usize, other))) {
            let (made, events) = (said_made(round, number as u64, call.said()), said_events(round, number as u64, one.process as u64));
            said.push(format!("{made} of process {} ({events})", one.process));
        }
    }
    let more = said.len().saturating_sub(OPEN_SHOWN);
    said.truncate(OPEN_SHOWN);
    if more > 0 {
        said.push(format!("and {more} more"));
    }
    (!said.is_empty()).then(|| format!("  also open on the same keys meanwhile: {}", said.join(", ")))
}

/// Who put a value.
fn said_writer(round: &Round, answer: &Json) -> String {
    let Json::Number(value) = answer else { return String::new() };
    for (number, one) in round.events.iter().enumerate() {
        if one.call().and_then(Call::put) == Some(*value) {
            return format!("; {value} is what process {} put (event {number})", one.process);
        }
    }
    let was_there = round.start.values().any(|held| held == value);
    if was_there { format!("; {value} was there {}", round.at_start) } else { format!("; {value} is what {} put", round.nobody) }
}

/// Who put a value that the few calls read and none of them put.
fn said_origin(round: &Round, line: &Json) -> String {
    let start = *line.member("start") == Json::Bool(true);
    let mut who = if start { vec![format!("what was there {}", round.at_start)] } else { vec![] };
    for put in line.member("puts").items() {
        who.push(format!("what process {} put (event {})", put.member("process").number(), put.member("event").number()));
    }
    let who = if who.is_empty() { format!("what {} put", round.nobody) } else { who.join(", ") };
    format!("  {} at {} is {who}", line.member("value").number(), line.member("key").number())
}

/// The value of a key from which the few calls have no order. Only an undecided report has such lines.
fn said_from(line: &Json) -> String {
    let key = line.member("key").number();
    let (Json::Number(value), put) = (line.member("from"), line.member("put")) else {
        return format!("  from key {key} holding nothing");
    };
    let who = match put {
        Json::Null => "was there before these calls".to_string(),
        put => format!("process {} put (event {})", put.member("process").number(), put.member("event").number()),
    };
    format!("  from key {key} holding {value}, which {who}")
}

/// Which calls one misses.
fn said_missed(round: &Round, line: &Json) -> String {
    let missed = line.member("misses").items().iter();
    missed.map(|call| {
        let (process, event) = (call.member("process").number(), call.member("event").number());
        format!("; it misses {} of process {process} (event {event})", said_made(round, event, said_call(call.member("call"))))
    }).collect()
}

/// A report of `explain` in words, and the line that is the few calls' history, if it is there. After an undecided there is a line of `locate`, which
/// is skipped.
fn said_report(report: &str, round: &Round) -> (Vec<String>, Option<String>) {
    let mut lines = report.lines();
    let (mut said, mut few) = (vec![said_verdict(lines.next().unwrap_or(""))], None);
    let (mut shown, mut next) = (vec![], vec![]);
    for text in lines {
        let line = Json::read(&mut &*text);
        if line.has("verdict") {
            continue;
        }
        if said.len() == 1 {
            said.push("these calls have no order, and no other could mend that:".to_string());
        }
        if text.starts_with("{\"events\"") {
            few = Some(format!("{text}\n"));
        } else if line.has("answer") {
            let (event, process) = (line.member("event").number(), line.member("process").number());
            let made = || said_call(line.member("call")) + &said_answered(round, line.member("answer"));
            let made = note_of(round, event).cloned().unwrap_or_else(made);
            let missed = said_missed(round, &line);
            let events = said_events(round, event, process);
            shown.push(event);
            said.push(format!("  {events:<19} process {process:<3} {made}{missed}"));
        } else if line.has("from") {
            said.push(said_from(&line));
        } else if line.has("puts") {
            said.push(said_origin(round, &line));
        } else if line.has("front") {
            let front: Vec<String> = line.member("front").items().iter().map(|event| event.number().to_string()).collect();
            let holds = said_answer(line.member("holds"));
            said.push(match front.is_empty() {
                true => format!("  no call of them can come first; the map holds {holds}"),
                false => format!("  an order of them gets as far as the events [{}]; the map then holds {holds}", front.join(",")),
            });
            for call in line.member("next").items() {
                let (event, answer, would) = (call.member("event").number(), call.member("answer"), call.member("would"));
                next.push(event);
                let writer = said_writer(round, answer);
                let (answer, would) = (said_answer(answer), said_answer(would));
                said.push(format!("  the call of event {event} was answered {answer}, and would be answered {would}{writer}"));
            }
        }
    }
    let last: Vec<u64> = shown.last().copied().into_iter().collect();
    said.extend(said_open(round, &shown, if next.is_empty() { &last } else { &next }));
    (said, few)
}

/// A line of a report, without the values that some replaces of a cache put: those that said that they changed nothing.
fn unmarked(line: &str) -> String {
    let texts = line.split_inclusive(|one: char| !one.is_ascii_digit());
    texts.map(|text| {
        let digits = text.trim_end_matches(|one: char| !one.is_ascii_digit());
        match digits.parse::<u64>() {
            Ok(value) if (OWN_VALUES..u64::MAX).contains(&value) => text.replace(digits, "a value that no call puts"),
            _ => text.to_string(),
        }
    }).collect()
}

/// Writes a file of a round, or of a stream, and says its name.
fn keep(run: &Run, ending: &str, text: &str) -> String {
    let name = format!("{}-{}-{}{ending}", run.options.name, run.options.seed, run.counted.rounds.saturating_sub(1));
    let path = std::path::Path::new(&run.options.out).join(name);
    match std::fs::write(&path, text) {
        Ok(()) => format!("  file: {}", path.display()),
        Err(_) => format!("file: not written: {}", path.display()),
    }
}

/// Reports a stream that has no order. If the calls that are left show the fault, their history is explained; otherwise a line says why not. The
/// stream so far is saved, unless it is long. The report is saved if it is not shown whole, or if nothing else is saved.
fn refuted_stream(run: &Run, program: &Program) -> Result<Vec<String>, Stop> {
    let (report, left) = run.report.split_once('\n').unwrap_or((&run.report, ""));
    let is_whole = report.len() <= REPORT_SHOWN;
    let mut said = vec![if is_whole { report.to_string() } else { format!("{}..", &report[..REPORT_SHOWN]) }];
    if left.is_empty() {
        said.push(format!("the few calls are not shown: {}", why_not_few(report)));
    } else {
        said.extend(shown_left(run, left, program));
    }
    said.push(match &run.kept {
        Some(kept) => keep(run, ".jsonl", kept),
        None => format!("the stream is not saved, since it is longer than {KEPT} bytes"),
    });
    if !is_whole || left.is_empty() && run.kept.is_none() {
        said.push(keep(run, "-report.json", &format!("{report}\n")));
    }
    said.push(format!("{AGAIN}{}", run.options.again(0)));
    Ok(said)
}

/// Saves the history of the calls that are left, and a few calls of it that have no order. If these are not found, it saves only the history.
fn shown_left(run: &Run, left: &str, program: &Program) -> Vec<String> {
    let explained = match program.ask_twice("explain", left) {
        Ok((_, explained)) => explained,
        Err(Stop(_, line)) => return vec![format!("the few calls are not shown: {line}"), keep(run, ".json", left)],
    };
    if !explained.contains("\n{\"answer\":") {
        let line = format!("the few calls are not shown: they are not found within a budget of {}", program.more());
        return vec![line, keep(run, ".json", left)];
    }
    let mut said = vec![RENUMBERED.to_string()];
    let mut round = Round::read(left);
    round.note(run.report.lines().next().unwrap_or(""), &run.notes);
    said.extend(shown(run, left, &explained, &round, program));
    said
}

/// Why no history of few calls follows a no of a stream.
fn why_not_few(report: &str) -> &'static str {
    let report = Json::read(&mut &*report);
    match report.member("keys").items().iter().map(|key| key.member("values").items().len()).max() {
        None => "no map gives a scan the answer of this event",
        Some(0) => "the call had taken effect by then, and its answer contradicts what it found",
        Some(1) => "the calls \"invoked\" may have taken effect in several ways, or they fit no history: they are too many, or too many are open at \
                    once",
        Some(_) => "a key may have had any of the listed values before the calls \"invoked\"",
    }
}

/// What a report of `explain` says of a history, and the files that show it. The words and the picture have the processes and events of the
/// first file.
fn shown(run: &Run, text: &str, report: &str, round: &Round, program: &Program) -> Vec<String> {
    let (mut said, few) = said_report(report, round);
    if run.options.cache.is_some() {
        said.iter_mut().for_each(|line| *line = unmarked(line));
    }
    said.push(keep(run, ".json", text));
    said.extend(few.as_ref().map(|few| keep(run, "-few.json", few)));
    said.push(keep_made(run, program, "draw", ".svg", text));
    said.push(keep_made(run, program, "page", ".html", text));
    said
}

/// Saves the file that the program or the library makes of a history, or says why there is none.
fn keep_made(run: &Run, program: &Program, command: &str, ending: &str, text: &str) -> String {
    match program.ask_twice(command, text) {
        Ok((_, made)) => keep(run, ending, &made),
        Err(Stop(_, line)) => format!("file: not made: {ending}: {line}"),
    }
}

/// A round that has no order: what shows it, and how to repeat it.
fn refuted<M: Map>(run: &Run, make: &dyn Fn() -> M, program: &Program) -> Result<Vec<String>, Stop> {
    if run.options.is_stream {
        return refuted_stream(run, program);
    }
    let less = smaller(run, make, program)?;
    let least = less.as_ref().unwrap_or(run);
    let Some(round) = &least.failed else { return Ok(vec![]) };
    let (threads, keys, calls) = (least.options.threads, least.options.keys, least.options.calls);
    let mut said = vec![format!("round {} has no order", run.counted.rounds - 1)];
    said.push(format!("the smallest of some tries that failed: threads {threads}, keys {keys}, calls {calls}"));
    let text = round.text();
    let kept = keep(run, ".json", &text); // before: the part that explains may be built first
    match program.ask_twice("explain", &text) {
        Ok((_, explained)) => said.extend(shown(run, &text, &explained, round, program)),
        Err(Stop(_, line)) => said.extend([kept, format!("the few calls are not shown: {line}")]),
    }
    said.push(format!("{AGAIN}{}", run.options.again(run.counted.rounds)));
    Ok(said)
}

// Words

const USAGE: &str = "  --seconds N       how long (10, or as long as --rounds take)
  --rounds N        at most N rounds
  --threads N       threads that call the map (4)
  --keys N          keys, from 0 (16; of a stream 1000)
  --hot N           nine calls in ten use one of the first N keys
  --calls N         calls of each thread in a round, or in a stream (200; no limit)
  --seed N          what the calls are drawn from (the clock)
  --mix LIST        shares, such as get=50,put=30,del=10,scan=10; also replace, put_if_absent, floor, ceiling, pop_first
  --void HOW        done: a put or del may answer done; told: it must say the value before; own: one writer for each key remembers
                    what it put; lock: a lock for each key around a get and the put after it (done)
  --scan HOW        snapshot: a scan is of one moment; steps: steps of ceiling (snapshot)
  --yield N         of a thousand points in and between calls, N let another thread run (0)
  --break HOW       makes the map wrong now and then: drop, race, replay, stale, zombie, torn or cas; all: in each of these ways
  --cache [late]    the map is a cache, which may lose any key at any time; late: its writes appear later, so a miss says nothing
  --fresh N         a new map after each N rounds (one map)
  --reopen          the map is closed and opened again after each round
  --stream          one stream, judged while it is recorded, in place of rounds
  --out FOLDER      where files are written (.); -: all histories, or the stream, on standard output, judged by nobody
  --budget N        states that a search may meet (100000); an undecided round is asked again at ten times as many
  --bench PATH      the program (./bench, or on the PATH)";

#[derive(Clone)]
struct Options {
    name: String,
    void: String,
    scan: String,
    out: String,
    broken: Option<String>,
    bench: Option<String>,
    seconds: u64,
    rounds: u64,
    threads: u64,
    keys: u64,
    hot: u64,
    calls: u64,
    seed: u64,
    yields: u64,
    budget: u64,
    cache: Option<String>,
    fresh: u64,
    span: u64,
    has_del: bool,
    is_reopened: bool,
    is_stream: bool,
    has_void: bool,
    has_mix: bool,
    shares: [u64; 9],
    shows: bool,
    shown: Instant,
}

impl Options {
    fn new(name: &str, words: &[String]) -> Result<Options, Stop> {
        let seed = SystemTime::now().duration_since(SystemTime::UNIX_EPOCH).map_or(1, |time| time.as_nanos() as u64 % 1_000_000_007);
        let mut options = Options {
            name: name.to_string(), void: "done".to_string(), scan: "snapshot".to_string(), out: ".".to_string(), broken: None, bench: None,
            seconds: 0, rounds: 0, threads: 4, keys: 0, hot: 0, calls: 0, seed, yields: 0, budget: 100_000,
            cache: None, fresh: 0, span: SPAN, has_del: false, is_reopened: false, is_stream: false, has_void: false, has_mix: false,
            shares: [0; 9], shows: std::io::stderr().is_terminal(), shown: Instant::now(),
        };
        let mut words = words.iter().peekable();
        while let Some(word) = words.next() {
            match word.as_str() {
                "--stream" => options.is_stream = true,
                "--reopen" => options.is_reopened = true,
                "--cache" => {
                    options.cache = Some("now".to_string());
                    if let Some(next) = words.next_if(|next| !next.starts_with("--")) {
                        options.cache = Some(next.clone());
                    }
                }
                _ => options.read(word, words.next().map_or("", |text| text))?,
            }
        }
        if options.cache.as_ref().is_some_and(|how| how != "now" && how != "late") {
            return fail(BAD_WORDS, "--cache: only late may follow");
        }
        Ok(options)
    }

    fn read(&mut self, word: &str, text: &str) -> Result<(), Stop> {
        let (least, most, to) = match word {
            "--seconds" => (1, 1_000_000_000, &mut self.seconds),
            "--rounds" => (1, u64::MAX, &mut self.rounds),
            "--threads" => (1, 1024, &mut self.threads),
            "--keys" => (1, STREAM_KEYS, &mut self.keys),
            "--hot" => (1, STREAM_KEYS, &mut self.hot),
            "--calls" => (1, u64::MAX, &mut self.calls),
            "--seed" => (0, u64::MAX, &mut self.seed),
            "--yield" => (0, 1000, &mut self.yields),
            "--budget" => (1, 1_000_000, &mut self.budget),
            "--fresh" => (1, u64::MAX, &mut self.fresh),
            _ => return self.read_named(word, text),
        };
        match text.parse() {
            Ok(number) if least <= number && number <= most => *to = number,
            _ => return fail(BAD_WORDS, format!("{word}: a number from {least} to {most}")),
        }
        Ok(())
    }

    fn read_named(&mut self, word: &str, text: &str) -> Result<(), Stop> {
        let is_named = match word {
            "--void" => matches!(text, "done" | "told" | "own" | "lock"),
            "--scan" => matches!(text, "snapshot" | "steps"),
            "--break" => text == "all" || BREAKS.iter().any(|(how, _)| *how == text),
            _ => true,
        };
        if !is_named {
            return fail(BAD_WORDS, format!("{word}: not one of its names; see --help"));
        }
        match word {
            "--void" => (self.void, self.has_void) = (text.to_string(), true),
            "--scan" => self.scan = text.to_string(),
            "--break" => self.broken = Some(text.to_string()),
            "--out" => self.out = text.to_string(),
            "--bench" => self.bench = Some(text.to_string()),
            "--mix" => return self.read_mix(text),
            _ => return fail(BAD_WORDS, format!("{word}: no such option; see --help")),
        }
        Ok(())
    }

    fn read_mix(&mut self, text: &str) -> Result<(), Stop> {
        (self.has_mix, self.shares) = (true, [0; 9]);
        for part in text.split(',') {
            let (name, share) = part.split_once('=').unwrap_or((part, ""));
            match (NAMES.iter().position(|own| *own == name), share.parse()) {
                (Some(at), Ok(share)) if share < 1_000_000 => self.shares[at] = share,
                _ => return fail(BAD_WORDS, "--mix: shares, such as get=50,put=30,del=10,scan=10"),
            }
        }
        Ok(())
    }

    /// Whether the functions that a broken map makes wrong are called; for `all`, whether those of one kind are.
    fn is_called(&self, how: &str) -> bool {
        let is_steps = |name: &str| name == "torn" && self.scan == "steps";
        BREAKS.iter().any(|(name, kind)| (*name == how || how == "all") && self.shares[*kind as usize] > 0 && !is_steps(name))
    }

    /// Tests that the options fit each other and the functions of the map.
    fn fit(&mut self, has: [bool; 9], can_reopen: bool) -> Result<(), Stop> {
        let is_apart = self.void == "own" || self.void == "lock";
        for kind in KINDS {
            let is_steps = kind == Scan && self.scan == "steps";
            let is_there = has[if is_steps { Ceiling } else { kind } as usize];
            if is_steps && !is_there {
                return fail(BAD_WORDS, "--scan: steps need the function ceiling");
            }
            if !self.has_mix && is_there && !(kind == PopFirst && is_apart) {
                self.shares[kind as usize] = SHARES[kind as usize];
            }
            if self.shares[kind as usize] > 0 && !is_there {
                return fail(BAD_WORDS, format!("{}: no such function of the map", kind.name()));
            }
        }
        self.keys = if self.keys > 0 { self.keys } else if self.is_stream { 1000 } else { 16 };
        self.calls = if self.calls > 0 || self.is_stream { self.calls } else { 200.min(CALLS / (self.threads + 2)) };
        self.seconds = if self.seconds > 0 { self.seconds } else if self.rounds > 0 { 1_000_000_000 } else { 10 };
        let (most, threads) = (CALLS / (self.threads + 1), self.threads);
        let size = format!("at most {most} with {threads} threads, since a round has at most {CALLS} calls");
        let many_keys = format!("--keys: {size}, with a get of each key at its end; --stream has no such limit");
        let many_calls = format!("--calls: {size}; --stream has no such limit");
        let is_unbroken = self.broken.as_ref().map_or(true, |how| self.is_called(how));
        let rows = [
            (self.shares.iter().sum::<u64>() == 0, "--mix: no share"),
            (self.shares[PopFirst as usize] > 0 && is_apart, "pop_first: takes keys of other threads, so not with --void own or lock"),
            (!is_unbroken, "--break: no call that it would break is made"),
            (self.hot > self.keys, "--hot: more than there are keys"),
            (self.void == "own" && self.keys < self.threads, "--void: own: each thread needs a key"),
            (
                self.cache.is_some() && self.void == "own",
                "--cache: not with --void own, since the writer of a key does not see that the key was lost",
            ),
            (self.is_stream && self.fresh > 0, "--fresh: not with --stream, which is of one map"),
            (self.is_stream && self.is_reopened, "--reopen: not with --stream, which is of one map"),
            (self.is_reopened && !can_reopen, "--reopen: the map has no function reopen"),
            (self.is_stream && self.rounds > 0, "--rounds: a stream has no rounds; use --seconds, or --calls for each thread"),
            (!self.is_stream && threads >= PROCESSES as u64, "--threads: at most 63 in rounds; --stream has no such limit"),
            (!self.is_stream && self.keys > most, &many_keys),
            (!self.is_stream && self.calls > most, &many_calls),
        ];
        rows.iter().find(|(is_wrong, _)| *is_wrong).map_or(Ok(()), |(_, line)| fail(BAD_WORDS, *line))?;
        self.has_del = has[Del as usize];
        if !self.is_stream && self.cache.is_some() {
            self.span = SPAN.min((PROCESSES as u64 - 1 - threads) / threads).max(1); // each missing key needs a process
        }
        self.check_out()
    }

    /// Tests whether a file can be written into the folder for files: one with a new name is written there, and removed.
    fn check_out(&self) -> Result<(), Stop> {
        if self.out == "-" {
            return Ok(());
        }
        let named = |number| std::path::Path::new(&self.out).join(format!(".potzendai-{}-{number}", std::process::id()));
        let create = |number| std::fs::OpenOptions::new().write(true).create_new(true).open(named(number));
        let mut number = 0;
        let mut created = create(number);
        while created.as_ref().is_err_and(|error| error.kind() == std::io::ErrorKind::AlreadyExists) && number < 1000 {
            number += 1;
            created = create(number);
        }
        created.and_then(|_| std::fs::remove_file(named(number))).or_else(|error| {
            let (text, code) = (error.to_string(), format!(" (os error {})", error.raw_os_error().unwrap_or(0)));
            fail(BAD_FILE, format!("--out: no file can be written into {}: {}", self.out, text.replace(&code, "")))
        })
    }

    /// Options with half of the calls or of the keys, or one thread less; none if that is not possible.
    fn less(&self, how: usize) -> Option<Options> {
        let mut less = self.clone();
        (less.rounds, less.shows) = (1, false);
        match how {
            0 => less.calls /= 2,
            1 => less.keys /= 2,
            _ => less.threads -= 1,
        }
        let least_keys = if self.void == "own" { less.threads } else { 1 };
        (less.calls > 0 && less.threads > 0 && less.keys >= least_keys).then_some(less)
    }

    /// The options that repeat the draws of a run of this many rounds.
    fn again(&self, rounds: u64) -> String {
        let shares = KINDS.iter().filter(|kind| self.shares[**kind as usize] > 0);
        let mix: Vec<String> = shares.map(|kind| format!("{}={}", kind.name(), self.shares[*kind as usize])).collect();
        let mut text = format!("{} --seed {} --threads {} --keys {}", self.name, self.seed, self.threads, self.keys);
        if self.hot > 0 {
            let _ = write!(text, " --hot {}", self.hot);
        }
        if self.calls > 0 {
            let _ = write!(text, " --calls {}", self.calls);
        }
        let _ = write!(text, " --mix {}", mix.join(","));
        if self.has_void || !self.is_stream {
            let _ = write!(text, " --void {}", self.void);
        }
        let _ = write!(text, " --scan {}", self.scan);
        if self.yields > 0 {
            let _ = write!(text, " --yield {}", self.yields);
        }
        if let Some(how) = &self.cache {
            text.push_str(if how == "late" { " --cache late" } else { " --cache" });
        }
        if self.fresh > 0 {
            let _ = write!(text, " --fresh {}", self.fresh);
        }
        text.push_str(if self.is_reopened { " --reopen" } else { "" });
        if let Some(how) = &self.broken {
            let _ = write!(text, " --break {how}");
        }
        if self.is_stream { format!("{text} --stream --seconds {}", self.seconds) } else { format!("{text} --rounds {rounds}") }
    }
}

/// How often the threads called each function of the map, and which functions it does not have.
fn said_calls(has: [bool; 9], called: [u64; 9]) -> String {
    let (there, missing): (Vec<Kind>, Vec<Kind>) = KINDS.iter().partition(|kind| has[**kind as usize]);
    let calls: Vec<String> = there.iter().map(|kind| format!("{} {}", kind.name(), called[*kind as usize])).collect();
    let names: Vec<&str> = missing.iter().map(|kind| kind.name()).collect();
    let rest = if names.is_empty() { String::new() } else { format!("; not there: {}", names.join(", ")) };
    format!("calls: {}{rest}", calls.join(", "))
}

/// How a run went: its status, the lines to print before the last line, and that line.
fn tested<M: Map>(name: &str, make: &dyn Fn() -> M, words: &[String]) -> Result<(i32, Vec<String>, String), Stop> {
    let mut options = Options::new(name, words)?;
    let map = make();
    let has = functions(&map);
    let can_reopen = options.is_reopened && map.reopen().is_some();
    options.fit(has, can_reopen)?;
    let program = if options.out == "-" { None } else { Some(Program::new(&options)?) };
    if let (Some("all"), Some(program)) = (options.broken.as_deref(), &program) {
        return all_broken(options, make, program, has);
    }
    let run = Run::new(&options, make, program.as_ref(), 0)?;
    let is_empty = program.is_some() && options.cache.is_some() && run.tally.hits == 0;
    let is_undecided = run.undecided > 0 || !run.cut.is_empty() || is_empty;
    let status = if run.failed.is_some() { NO } else if is_undecided { UNDECIDED } else { YES };
    let (mut said, calls) = (run.cut.clone(), said_calls(has, run.counted.called));
    let Some(program) = program else {
        said.extend([calls, run.summary("not judged")]);
        return Ok((status, said, String::new()));
    };
    if run.failed.is_some() {
        said = refuted(&run, make, &program)?;
    }
    if let (Some(how), YES) = (&options.broken, status) {
        said.push(format!("--break {how}: the map was wrong now and then, and these calls did not show it"));
    }
    said.push(calls);
    Ok((status, said, run.summary(VERDICTS[status as usize])))
}

/// Each kind of bug that the drawn calls can show has to be refuted. Then the status is that of a no.
fn all_broken<M: Map>(
    mut options: Options, make: &dyn Fn() -> M, program: &Program, has: [bool; 9],
) -> Result<(i32, Vec<String>, String), Stop> {
    let (mut said, mut missed, mut called) = (vec![], 0, [0; 9]);
    for (how, _) in BREAKS {
        if !options.is_called(how) {
            said.push(format!("{how}: no call that it would break is made"));
            continue;
        }
        options.broken = Some(how.to_string());
        let run = Run::new(&options, make, Some(program), 0)?;
        let is_refuted = run.failed.is_some() && run.wrong_times > 0;
        missed += usize::from(!is_refuted);
        (0..9).for_each(|kind| called[kind] += run.counted.called[kind]);
        let verdict = if is_refuted { "no" } else if run.failed.is_some() { "no of the map itself" } else { "yes" };
        said.push(format!("{how}: {}", run.summary(verdict)));
    }
    said.push(said_calls(has, called));
    said.push("this shows that calls and answers reach the judge; it does not show that threads meet: see the overlap".to_string());
    Ok(match missed {
        0 => (NO, said, "no: each broken map was refuted".to_string()),
        _ => (YES, said, format!("yes: {missed} of the broken maps were not refuted")),
    })
}

/// Writes a line to standard error. If that fails, nothing else changes.
fn tell(line: &str) {
    let _ = writeln!(std::io::stderr(), "{line}");
}

/// Prints a text, and returns the status. If standard output has no room, a yes gets another status.
fn printed(status: i32, text: &str) -> i32 {
    if writeln!(std::io::stdout(), "{text}").is_ok() {
        return status;
    }
    tell("standard output: not written");
    if status == YES { BAD_FILE } else { status }
}

/// A whole program: it reports how the run went, and returns the status. `make` makes a new and empty map for each run.
pub fn run<M: Map>(name: &str, make: impl Fn() -> M, words: impl Iterator<Item = String>) -> i32 {
    let words: Vec<String> = words.collect();
    if words.iter().any(|word| word == "--help" || word == "-h") {
        return printed(YES, &format!("usage: {name} [OPTIONS]\n{USAGE}"));
    }
    match tested(name, &make, &words) {
        Ok((status, said, last)) => {
            said.iter().for_each(|line| tell(line));
            if last.is_empty() { status } else { printed(status, &last) }
        }
        Err(Stop(status, line)) => {
            tell(&line);
            status
        }
    }
}

/// For a test: panics with the explanation if the verdict is not yes.
pub fn check<M: Map>(name: &str, make: impl Fn() -> M, words: &[&str]) {
    let words: Vec<String> = words.iter().map(|word| word.to_string()).collect();
    match tested(name, &make, &words) {
        Ok((YES, ..)) => (),
        Ok((_, said, last)) => panic!("{}\n{last}", said.join("\n")),
        Err(Stop(_, line)) => panic!("{line}"),
    }
}
