//! Compares the proved reader of frames with a second reader, written here from docs/RULES.md alone.
//!
//!     frames [COUNT [SEED]]                  against the C function of the static library
//!     frames --desk PROGRAM [COUNT [SEED]]   against what `PROGRAM frames` prints, line by line
//!     frames --table TABLE                   this reader against the conformance table
//!     frames --dump [COUNT [SEED]]           only prints each answer and its text
//!
//! The texts are random, from the seed alone; the library also gets every text that one byte makes of a frame. Ends
//! with status 1 where anything differs.
//!
//! The second reader makes a tree by recursive descent, without a limit of depth, and tells two places: that of the
//! first byte that cannot stand where it stands, and that of the first bracket that passes the depth. The smaller one
//! decides.
use std::collections::BTreeMap;
use std::env;
use std::fs;
use std::io::Write;
use std::process::{exit, Command, Stdio};
use std::thread;

const SEED: u64 = 20_260_301;
const TEXTS: usize = 1_000_000;
const LINES: usize = 100_000;
const LONGEST: usize = 1_024;
const DEEPEST: usize = 8;

// ---------------------------------------------------------------------------------------------------------------------
// The second reader: JSON
// ---------------------------------------------------------------------------------------------------------------------

/// A JSON value. Strings (without their quotes), numbers and words are kept as they are written.
enum Tree<'a> {
    Object(Members<'a>),
    Array(Vec<Tree<'a>>),
    String(&'a [u8]),
    Number(&'a [u8]),
    Word(&'a [u8]),
}

type Members<'a> = Vec<(&'a [u8], Tree<'a>)>;

/// The place of the first byte that cannot stand there, or the length where the text ends too soon.
struct Bad(usize);

struct Parser<'a> {
    text: &'a [u8],
    at: usize,
    open: usize,
    /// The place of the first bracket or brace that passes the depth.
    deep: Option<usize>,
}

impl<'a> Parser<'a> {
    fn sees(&self, wanted: impl Fn(u8) -> bool) -> bool {
        self.at < self.text.len() && wanted(self.text[self.at])
    }

    fn may(&mut self, wanted: impl Fn(u8) -> bool) -> bool {
        let found = self.sees(wanted);
        self.at += usize::from(found);
        found
    }

    fn must(&mut self, wanted: impl Fn(u8) -> bool) -> Result<(), Bad> {
        if self.may(wanted) { Ok(()) } else { Err(Bad(self.at)) }
    }

    fn space(&mut self) {
        while self.may(|b| b" \t\n\r".contains(&b)) {}
    }

    fn whole(&mut self) -> Result<Tree<'a>, Bad> {
        self.space();
        let tree = self.value()?;
        self.space();
        if self.at == self.text.len() { Ok(tree) } else { Err(Bad(self.at)) }
    }

    fn value(&mut self) -> Result<Tree<'a>, Bad> {
        match self.text.get(self.at) {
            Some(b'{') => self.object(),
            Some(b'[') => self.array(),
            Some(b'"') => Ok(Tree::String(self.string()?)),
            Some(b't') => self.word(b"true"),
            Some(b'f') => self.word(b"false"),
            Some(b'n') => self.word(b"null"),
            _ => self.number(),
        }
    }

    fn enter(&mut self) {
        self.open += 1;
        if self.open > DEEPEST && self.deep.is_none() {
            self.deep = Some(self.at);
        }
        self.at += 1;
        self.space();
    }

    /// What stands between an opening byte and its closing one, with commas between.
    fn items<T>(
        &mut self,
        close: u8,
        item: impl Fn(&mut Self) -> Result<T, Bad>,
    ) -> Result<Vec<T>, Bad> {
        self.enter();
        let mut items = Vec::new();
        if !self.may(|b| b == close) {
            loop {
                items.push(item(self)?);
                self.space();
                if self.may(|b| b == close) {
                    break;
                }
                self.must(|b| b == b',')?;
                self.space();
            }
        }
        self.open -= 1;
        Ok(items)
    }

    fn array(&mut self) -> Result<Tree<'a>, Bad> {
        Ok(Tree::Array(self.items(b']', |text| text.value())?))
    }

    fn object(&mut self) -> Result<Tree<'a>, Bad> {
        Ok(Tree::Object(self.items(b'}', |text| text.member())?))
    }

    fn member(&mut self) -> Result<(&'a [u8], Tree<'a>), Bad> {
        let name = self.string()?;
        self.space();
        self.must(|b| b == b':')?;
        self.space();
        Ok((name, self.value()?))
    }

    fn string(&mut self) -> Result<&'a [u8], Bad> {
        self.must(|b| b == b'"')?;
        let from = self.at;
        while !self.sees(|b| b == b'"') {
            if self.may(|b| b == b'\\') {
                if self.may(|b| b == b'u') {
                    for _ in 0..4 {
                        self.must(|b| b.is_ascii_hexdigit())?;
                    }
                } else {
                    self.must(|b| b"\"\\/bfnrt".contains(&b))?;
                }
            } else {
                self.must(|b| b >= 0x20)?;
            }
        }
        self.at += 1;
        Ok(&self.text[from..self.at - 1])
    }

    fn word(&mut self, word: &'a [u8]) -> Result<Tree<'a>, Bad> {
        for &byte in word {
            self.must(|b| b == byte)?;
        }
        Ok(Tree::Word(word))
    }

    fn digits(&mut self) -> Result<(), Bad> {
        self.must(|b| b.is_ascii_digit())?;
        while self.may(|b| b.is_ascii_digit()) {}
        Ok(())
    }

    fn number(&mut self) -> Result<Tree<'a>, Bad> {
        let from = self.at;
        self.may(|b| b == b'-');
        if !self.may(|b| b == b'0') {
            self.digits()?;
        }
        if self.may(|b| b == b'.') {
            self.digits()?;
        }
        if self.may(|b| b == b'e' || b == b'E') {
            self.may(|b| b == b'+' || b == b'-');
            self.digits()?;
        }
        Ok(Tree::Number(&self.text[from..self.at]))
    }
}

// ---------------------------------------------------------------------------------------------------------------------
// The second reader: frames
// ---------------------------------------------------------------------------------------------------------------------

const KINDS: [&str; 3] = ["Started", "Updated", "Ended"];
const REASONS: [&str; 3] = ["CablePluggedIn", "MeterValuePeriodic", "EVDeparted"];
const MEASURAND: &str = "Energy.Active.Import.Register";
const LARGEST_REGISTER: u64 = 1_000_000_000;

#[derive(Clone)]
struct Transmission {
    station: u64,
    session: u64,
    number: u64,
    attempt: u64,
    kind: &'static str,
    time: u64,
    reason: &'static str,
    offline: bool,
    register: Option<u64>,
}

/// The read names of a read object.
struct Names {
    required: &'static [&'static str],
    optional: &'static [&'static str],
}

const PAYLOAD: Names = Names {
    required: &["eventType", "timestamp", "triggerReason", "seqNo", "transactionInfo"],
    optional: &["offline", "meterValue"],
};
const INFO: Names = Names { required: &["transactionId"], optional: &[] };
const METER: Names = Names { required: &["sampledValue"], optional: &[] };
const SAMPLE: Names = Names { required: &["value"], optional: &["measurand"] };

impl Names {
    fn amiss(&self, members: &Members) -> bool {
        let count = |name: &&str| members.iter().filter(|(n, _)| *n == name.as_bytes()).count();
        self.required.iter().any(|name| count(name) != 1) || self.optional.iter().any(|name| count(name) > 1)
    }
}

fn get<'t, 'a>(members: &'t Members<'a>, name: &str) -> Option<&'t Tree<'a>> {
    members.iter().find(|(n, _)| *n == name.as_bytes()).map(|(_, value)| value)
}

fn object<'t, 'a>(tree: &'t Tree<'a>) -> Option<&'t Members<'a>> {
    if let Tree::Object(members) = tree { Some(members) } else { None }
}

fn string<'a>(tree: &Tree<'a>) -> Option<&'a [u8]> {
    if let Tree::String(bytes) = tree { Some(*bytes) } else { None }
}

/// The object that is the one element of an array.
fn only<'t, 'a>(tree: &'t Tree<'a>) -> Option<&'t Members<'a>> {
    match tree {
        Tree::Array(elements) if elements.len() == 1 => object(&elements[0]),
        _ => None,
    }
}

/// The message id and the payload.
fn array_of_four<'t, 'a>(tree: &'t Tree<'a>) -> Option<(&'a [u8], &'t Members<'a>)> {
    let Tree::Array(elements) = tree else { return None };
    let [Tree::Number(b"2"), Tree::String(id), Tree::String(b"TransactionEvent"), Tree::Object(payload)] = &elements[..]
    else {
        return None;
    };
    Some((*id, payload))
}

fn members_amiss(payload: &Members) -> bool {
    let info = get(payload, "transactionInfo").and_then(object);
    let meter = get(payload, "meterValue").and_then(only);
    let sample = meter.and_then(|m| get(m, "sampledValue")).and_then(only);
    PAYLOAD.amiss(payload)
        || info.is_some_and(|m| INFO.amiss(m))
        || meter.is_some_and(|m| METER.amiss(m))
        || sample.is_some_and(|m| SAMPLE.amiss(m))
}

/// The number that digits and nothing else write; where they are too many, the largest there is.
fn digits_worth(bytes: &[u8]) -> Option<u64> {
    if bytes.is_empty() || !bytes.iter().all(u8::is_ascii_digit) {
        return None;
    }
    Some(bytes.iter().fold(0u64, |sum, b| sum.saturating_mul(10).saturating_add(u64::from(b - b'0'))))
}

fn read_number(tree: &Tree) -> Option<u64> {
    if let Tree::Number(bytes) = tree { digits_worth(bytes) } else { None }
}

fn one_of(tree: &Tree, words: &[&'static str]) -> Option<&'static str> {
    let bytes = string(tree)?;
    words.iter().copied().find(|word| word.as_bytes() == bytes)
}

/// The parts of a text whose digits stand where the pattern has a `0`, and whose other bytes are the pattern's.
fn parts(text: &[u8], pattern: &str) -> Option<Vec<u64>> {
    let fits = |(t, p): (&u8, u8)| if p == b'0' { t.is_ascii_digit() } else { *t == p };
    if text.len() != pattern.len() || !text.iter().zip(pattern.bytes()).all(fits) {
        return None;
    }
    text.split(|b| !b.is_ascii_digit()).filter(|part| !part.is_empty()).map(digits_worth).collect()
}

fn days_of(year: u64, month: u64) -> u64 {
    match month {
        2 if year % 4 == 0 => 29,
        2 => 28,
        4 | 6 | 9 | 11 => 30,
        _ => 31,
    }
}

fn second_of(text: &[u8]) -> Option<u64> {
    let parts = parts(text, "0000-00-00T00:00:00Z")?;
    let [year, month, day, hour, minute, second] = parts[..] else { return None };
    if !(2000..=2099).contains(&year) || !(1..=12).contains(&month) || !(1..=days_of(year, month)).contains(&day) {
        return None;
    }
    if hour > 23 || minute > 59 || second > 59 {
        return None;
    }
    let years: u64 = (2000..year).map(|y| (1..=12).map(|m| days_of(y, m)).sum::<u64>()).sum();
    let months: u64 = (1..month).map(|m| days_of(year, m)).sum();
    Some((((years + months + day - 1) * 24 + hour) * 60 + minute) * 60 + second)
}

fn written_time(time: u64) -> String {
    let (mut year, mut month, mut days) = (2000, 1, time / 86_400);
    while days >= days_of(year, month) {
        days -= days_of(year, month);
        (year, month) = if month == 12 { (year + 1, 1) } else { (year, month + 1) };
    }
    let (hour, minute, second) = (time / 3_600 % 24, time / 60 % 60, time % 60);
    format!("{year:04}-{month:02}-{:02}T{hour:02}:{minute:02}:{second:02}Z", days + 1)
}

impl Transmission {
    fn lawful(&self) -> bool {
        self.station <= 65_535
            && (1..=99_999_999).contains(&self.session)
            && self.number <= 9_999
            && (1..=20).contains(&self.attempt)
            && (self.number == 0) == (self.kind == "Started")
            && self.register.map_or(self.kind == "Updated", |register| register <= LARGEST_REGISTER)
    }
}

/// The register, or that it is absent. None where something is not of its form.
fn register_in(payload: &Members) -> Option<Option<u64>> {
    let Some(meter) = get(payload, "meterValue") else { return Some(None) };
    let sample = only(get(only(meter)?, "sampledValue")?)?;
    if let Some(measurand) = get(sample, "measurand") {
        one_of(measurand, &[MEASURAND])?;
    }
    Some(Some(read_number(get(sample, "value")?)?))
}

/// What id and payload say, or None where a value is not of its form, they are at odds, or it is unlawful.
fn transmission(id: &[u8], payload: &Members) -> Option<Transmission> {
    let parts = parts(id, "00000-00000000-0000-00")?;
    let offline = match get(payload, "offline") {
        None | Some(Tree::Word(b"false")) => false,
        Some(Tree::Word(b"true")) => true,
        _ => return None,
    };
    let info = object(get(payload, "transactionInfo")?)?;
    let read = Transmission {
        station: parts[0],
        session: parts[1],
        number: read_number(get(payload, "seqNo")?)?,
        attempt: parts[3],
        kind: one_of(get(payload, "eventType")?, &KINDS)?,
        time: second_of(string(get(payload, "timestamp")?)?)?,
        reason: one_of(get(payload, "triggerReason")?, &REASONS)?,
        offline,
        register: register_in(payload)?,
    };
    let agree = string(get(info, "transactionId")?)? == &id[..14] && read.number == parts[2];
    (agree && read.lawful()).then_some(read)
}

/// The transmission, or the number of the refusal.
fn read(text: &[u8]) -> Result<Transmission, u32> {
    if text.len() > LONGEST {
        return Err(51);
    }
    let mut parser = Parser { text, at: 0, open: 0, deep: None };
    let whole = parser.whole();
    let bad = if let Err(Bad(place)) = whole { place } else { usize::MAX };
    if parser.deep.unwrap_or(usize::MAX) < bad {
        return Err(52);
    }
    let tree = whole.map_err(|_| 53u32)?;
    let (id, payload) = array_of_four(&tree).ok_or(54u32)?;
    if members_amiss(payload) {
        return Err(55);
    }
    transmission(id, payload).ok_or(56)
}

// ---------------------------------------------------------------------------------------------------------------------
// Random texts
// ---------------------------------------------------------------------------------------------------------------------

struct Random(u64);

impl Random {
    fn next(&mut self) -> u64 {
        self.0 = self.0.wrapping_add(0x9E37_79B9_7F4A_7C15);
        let mixed = (self.0 ^ (self.0 >> 30)).wrapping_mul(0xBF58_476D_1CE4_E5B9);
        let mixed = (mixed ^ (mixed >> 27)).wrapping_mul(0x94D0_49BB_1331_11EB);
        mixed ^ (mixed >> 31)
    }

    fn below(&mut self, limit: usize) -> usize {
        (self.next() % limit as u64) as usize
    }

    fn one_in(&mut self, many: usize) -> bool {
        self.below(many) == 0
    }

    fn pick<T: Copy>(&mut self, things: &[T]) -> T {
        things[self.below(things.len())]
    }
}

/// A value that is to be written. Leaves and names are the bytes themselves, with their quotes.
#[derive(Clone)]
enum Item {
    Leaf(Vec<u8>),
    List(Vec<Item>),
    Record(Vec<(Vec<u8>, Item)>),
}

fn leaf(text: impl AsRef<[u8]>) -> Item {
    Item::Leaf(text.as_ref().to_vec())
}

fn quoted(text: impl AsRef<[u8]>) -> Vec<u8> {
    [b"\"", text.as_ref(), b"\""].concat()
}

fn record<const N: usize>(members: [(&str, Item); N]) -> Item {
    Item::Record(members.into_iter().map(|(name, value)| (quoted(name), value)).collect())
}

fn id_of(sent: &Transmission) -> String {
    format!("{:05}-{:08}-{:04}-{:02}", sent.station, sent.session, sent.number, sent.attempt)
}

/// The written form of a transmission.
fn written(sent: &Transmission) -> Item {
    let id = id_of(sent);
    let time = quoted(written_time(sent.time));
    let info = record([("transactionId", leaf(quoted(&id[..id.len().min(14)])))]);
    let mut payload = record([
        ("eventType", leaf(quoted(sent.kind))),
        ("timestamp", leaf(&time)),
        ("triggerReason", leaf(quoted(sent.reason))),
        ("seqNo", leaf(sent.number.to_string())),
        ("offline", leaf(sent.offline.to_string())),
        ("transactionInfo", info),
    ]);
    if let (Some(register), Item::Record(members)) = (sent.register, &mut payload) {
        let value = ("value", leaf(register.to_string()));
        let sample = record([value, ("measurand", leaf(quoted(MEASURAND)))]);
        let meter = record([("timestamp", leaf(&time)), ("sampledValue", Item::List(vec![sample]))]);
        members.push((quoted("meterValue"), Item::List(vec![meter])));
    }
    Item::List(vec![leaf("2"), leaf(quoted(&id)), leaf(quoted("TransactionEvent")), payload])
}

fn lawful_transmission(random: &mut Random) -> Transmission {
    let kind = random.pick(&KINDS);
    let register = random.pick(&[0, 1, 1_250, 999_999_999, LARGEST_REGISTER, u64::MAX]);
    let register = if register == u64::MAX { random.next() % (LARGEST_REGISTER + 1) } else { register };
    Transmission {
        station: random.next() % if random.one_in(4) { 65_536 } else { 40 },
        session: 1 + random.next() % if random.one_in(4) { 99_999_999 } else { 9 },
        number: if kind == "Started" { 0 } else { 1 + random.next() % random.pick(&[9, 99, 9_999]) },
        attempt: 1 + random.next() % 20,
        kind,
        time: random.next() % 3_155_760_000,
        reason: random.pick(&REASONS),
        offline: random.one_in(3),
        register: (kind != "Updated" || !random.one_in(3)).then_some(register),
    }
}

/// A lawful transmission, then one thing out of range or against the law.
fn unlawful_transmission(random: &mut Random) -> Transmission {
    let mut sent = lawful_transmission(random);
    match random.below(7) {
        0 => sent.station = random.pick(&[65_535, 65_536, 70_000, 99_999]),
        1 => sent.session = random.pick(&[0, 1, 99_999_999]),
        2 => sent.attempt = random.pick(&[0, 1, 20, 21, 99]),
        3 => sent.register = random.pick(&[None, Some(LARGEST_REGISTER), Some(LARGEST_REGISTER + 1), Some(u64::MAX)]),
        4 => sent.number = random.pick(&[0, 1, 9_999]),
        5 => sent.kind = random.pick(&KINDS),
        _ => sent.register = None,
    }
    sent
}

const NUMBERS: [&str; 36] = [
    "0", "1", "7", "42", "9999", "10000", "65536", "-0", "-1", "-7", "0.0", "1.0", "2.50", "0e0", "1e3", "1E+2", "5e-1",
    "1.5e2", "00", "01", "007", "-01", "+1", ".5", "1.", "1e", "1e+", "0x1F", "1000000000", "1000000001", "4294967296",
    "18446744073709551615", "18446744073709551616", "18446744073709552866", "NaN",
    "340282366920938463463374607431768211457",
];
const NAMES: [&str; 18] = [
    "eventType", "timestamp", "triggerReason", "seqNo", "offline", "transactionInfo", "transactionId", "meterValue",
    "sampledValue", "value", "measurand", "evse", "customData", "", "x", "eventtype", "value ", "context",
];
const STRINGS: [&[u8]; 14] = [
    b"", b"a", b"Started", b"Ended", b"\\n", b"\\u0041", b"\\\"", b"\\\\", b"\xC3\xA9", b"\x80", b"\xFF\xFE",
    b"\\/\\b\\f\\r\\t", b"\\uD800", b"Energy.Active.Import.Register",
];
const BROKEN: [&str; 16] = [
    "tru", "True", "nul", "falsee", "\"\\x\"", "\"\\u12G4\"", "\"\\u123\"", "\"a", "'a'", "\"\t\"", "[1,]",
    "{\"a\":1,}", "{a:1}", "[1 2]", "{\"a\" 1}", "undefined",
];

fn random_name(random: &mut Random) -> Vec<u8> {
    let name = quoted(random.pick(&NAMES));
    if random.one_in(6) { escaped(&name, random) } else { name }
}

/// The string with one byte between its quotes spelled as an escape.
fn escaped(string: &[u8], random: &mut Random) -> Vec<u8> {
    if string.len() < 3 {
        return quoted("\\u0061");
    }
    let place = 1 + random.below(string.len() - 2);
    let escape = format!("\\u00{:02x}", string[place]);
    [&string[..place], escape.as_bytes(), &string[place + 1..]].concat()
}

/// A part of a string, nearly always a lawful one.
fn random_part(random: &mut Random) -> Vec<u8> {
    match random.below(4) {
        0 => {
            let digits = if random.one_in(40) { &b"0/:@G`g"[..] } else { b"0123456789abcdefABCDEF" };
            [b'\\', b'u'].into_iter().chain((0..4).map(|_| random.pick(digits))).collect()
        }
        1 => (0..8).map(|_| random.next() as u8).filter(|b| *b >= 0x20 && !b"\"\\".contains(b)).collect(),
        _ => random.pick(&STRINGS).to_vec(),
    }
}

fn random_digits(random: &mut Random) -> String {
    (0..1 + random.below(4)).map(|_| random.pick(b"0123456789") as char).collect()
}

/// A number, nearly always a lawful one.
fn random_number(random: &mut Random) -> String {
    let sign = random.pick(&["", "", "", "-"]);
    let whole = if random.one_in(4) { 0 } else { 1 + random.below(99_999) };
    let mut text = format!("{sign}{whole}");
    if random.one_in(3) {
        text += &format!(".{}", random_digits(random));
    }
    if random.one_in(3) {
        text += &format!("{}{}", random.pick(&["e", "E", "e+", "E-", "e-"]), random_digits(random));
    }
    text
}

fn random_leaf(random: &mut Random) -> Item {
    match random.below(12) {
        0 => leaf("true"),
        1 => leaf("false"),
        2 => leaf("null"),
        3 => leaf(random.pick(&NUMBERS[..18])),
        4 | 5 => leaf(random_number(random)),
        6 => leaf(quoted(written_time(random.next() % 3_155_760_000))),
        _ => {
            let parts: Vec<Vec<u8>> = (0..random.below(4)).map(|_| random_part(random)).collect();
            leaf(quoted(parts.concat()))
        }
    }
}

/// JSON that may stand in a skipped member: up to `height` arrays and objects high.
fn random_json(random: &mut Random, height: usize) -> Item {
    if height == 0 || random.one_in(2) {
        return random_leaf(random);
    }
    let count = random.below(4);
    if random.one_in(2) {
        Item::List((0..count).map(|_| random_json(random, height - 1)).collect())
    } else {
        Item::Record((0..count).map(|_| (random_name(random), random_json(random, height - 1))).collect())
    }
}

/// Arrays and objects, exactly so many open at the innermost place.
fn nest(random: &mut Random, height: usize) -> Item {
    if height == 0 {
        return random_leaf(random);
    }
    let within = nest(random, height - 1);
    let mut list = vec![(random_name(random), within)];
    while random.one_in(4) {
        let place = random.below(list.len() + 1);
        list.insert(place, (random_name(random), random_leaf(random)));
    }
    if random.one_in(2) { Item::Record(list) } else { Item::List(list.into_iter().map(|(_, item)| item).collect()) }
}

// ---------------------------------------------------------------------------------------------------------------------
// Changes of a value
// ---------------------------------------------------------------------------------------------------------------------

/// Acts on each item, on those within it first, so that none is met that an act has put there.
fn walk(item: &mut Item, act: &mut dyn FnMut(&mut Item)) {
    match item {
        Item::Leaf(_) => {}
        Item::List(items) => items.iter_mut().for_each(|item| walk(item, act)),
        Item::Record(members) => members.iter_mut().for_each(|(_, item)| walk(item, act)),
    }
    act(item);
}

/// Changes one of the wanted items, each as likely as another.
fn change_one(
    item: &mut Item,
    random: &mut Random,
    wanted: fn(&Item) -> bool,
    change: &mut dyn FnMut(&mut Item, &mut Random),
) {
    let mut count = 0;
    walk(item, &mut |item| count += usize::from(wanted(item)));
    if count == 0 {
        return;
    }
    let mut left = random.below(count) + 1;
    walk(item, &mut |item| {
        if left > 0 && wanted(item) {
            left -= 1;
            if left == 0 {
                change(item, random);
            }
        }
    });
}

type Written = Vec<(Vec<u8>, Item)>;

fn has_members(item: &Item) -> bool {
    matches!(item, Item::Record(members) if !members.is_empty())
}

/// Changes one member, told by its place, of one object.
fn change_member(item: &mut Item, random: &mut Random, change: fn(&mut Written, usize, &mut Random)) {
    change_one(item, random, has_members, &mut |item, random| {
        if let Item::Record(members) = item {
            let place = random.below(members.len());
            change(members, place, random);
        }
    });
}

/// Gives every member of this name another value.
fn change_named(item: &mut Item, name: &str, value: &Item) {
    let name = quoted(name);
    walk(item, &mut |item| {
        if let Item::Record(members) = item {
            members.iter_mut().filter(|(n, _)| *n == name).for_each(|(_, old)| *old = value.clone());
        }
    });
}

fn shuffle(item: &mut Item, random: &mut Random) {
    walk(item, &mut |item| {
        if let Item::Record(members) = item {
            for last in (1..members.len()).rev() {
                members.swap(last, random.below(last + 1));
            }
        }
    });
}

fn insert_member(item: &mut Item, random: &mut Random, name: Vec<u8>, value: Item) {
    change_one(item, random, |item| matches!(item, Item::Record(_)), &mut |item, random| {
        if let Item::Record(members) = item {
            members.insert(random.below(members.len() + 1), (name.clone(), value.clone()));
        }
    });
}

fn add_unlisted(item: &mut Item, random: &mut Random) {
    let names = ["evse", "customData", "idToken", "x", "", "eventtype", "seqNo ", "\\u0073eqNo", "offlin\\u0065"];
    let name = random.pick(&names);
    let value = random_json(random, 3);
    insert_member(item, random, quoted(name), value);
}

/// An unlisted member, or the skipped timestamp, that reaches about the depth.
fn add_deep(item: &mut Item, random: &mut Random) {
    let height = 2 + random.below(6);
    let value = nest(random, height);
    if random.one_in(8) {
        change_named(item, "timestamp", &value);
    } else {
        insert_member(item, random, quoted("customData"), value);
    }
}

fn double_member(item: &mut Item, random: &mut Random) {
    change_member(item, random, |members, place, random| {
        let (name, mut value) = members[place].clone();
        if random.one_in(2) {
            value = random_json(random, 2);
        }
        members.insert(random.below(members.len() + 1), (name, value));
    });
}

fn drop_member(item: &mut Item, random: &mut Random) {
    change_member(item, random, |members, place, _| drop(members.remove(place)));
}

fn rename_member(item: &mut Item, random: &mut Random) {
    change_member(item, random, |members, place, random| {
        let name = members[place].0.clone();
        members[place].0 = match random.below(5) {
            0 => name.to_ascii_lowercase(),
            1 => [&name[..name.len() - 1], b" \""].concat(),
            2 => [&name[..name.len() - 1], b"\xC3\xA9\""].concat(),
            3 => random_name(random),
            _ => escaped(&name, random),
        };
    });
}

fn other_kind(item: &mut Item, random: &mut Random) {
    change_one(item, random, |_| true, &mut |item, random| *item = random_json(random, 2));
}

fn odd_number(item: &mut Item, random: &mut Random) {
    let value = if random.one_in(3) { leaf(random_number(random)) } else { leaf(random.pick(&NUMBERS)) };
    change_named(item, random.pick(&["seqNo", "value"]), &value);
}

fn broken_leaf(item: &mut Item, random: &mut Random) {
    change_one(item, random, |item| matches!(item, Item::Leaf(_)), &mut |item, random| {
        *item = leaf(random.pick(&BROKEN));
    });
}

/// A string that is nearly the one that stands there.
fn odd_string(item: &mut Item, random: &mut Random) {
    let is_string = |item: &Item| matches!(item, Item::Leaf(text) if text.len() > 2 && text[0] == b'"');
    change_one(item, random, is_string, &mut |item, random| {
        let Item::Leaf(text) = item else { return };
        let place = 1 + random.below(text.len() - 2);
        match random.below(7) {
            0 => *text = escaped(text, random),
            1 => drop(text.remove(place)),
            2 => text.insert(place, random.pick(b"0 -:aZ")),
            3 => text[place] = random.pick(b"0123456789-:TZtz"),
            4 => text.make_ascii_uppercase(),
            5 => text[place] = 0x80 | random.next() as u8,
            _ => *text = quoted(random.pick(&STRINGS)),
        }
    });
}

fn odd_date(item: &mut Item, random: &mut Random) {
    let date = random.pick(&[
        "2025-02-29", "2024-02-29", "2024-02-30", "2000-02-29", "2099-02-29", "1999-12-31", "2100-01-01", "2026-00-10",
        "2026-13-10", "2026-01-00", "2026-01-31", "2026-01-32", "2026-04-30", "2026-04-31", "2026-3-01", "2099-12-31",
    ]);
    let time = random.pick(&[
        "T00:00:00Z", "T23:59:59Z", "T24:00:00Z", "T12:60:00Z", "T12:00:60Z", "t12:00:00Z", "T12:00:00z", "T12:00:00",
        "T12:00:00+00:00", "T12:00:00.0Z", "T12:00:00.000Z", " 12:00:00Z", "T09:00:00Z",
    ]);
    change_named(item, "timestamp", &leaf(quoted(format!("{date}{time}"))));
}

/// Arrays of no, one or two elements, which may lack or double what is read.
fn odd_length(item: &mut Item, random: &mut Random) {
    let value = ("value", leaf("5"));
    let sample = match random.below(5) {
        0 => record([]),
        1 => record([value.clone(), value]),
        2 => record([value, ("measurand", leaf("\"\"")), ("measurand", leaf("null"))]),
        3 => random_leaf(random),
        _ => record([value]),
    };
    let samples = Item::List(vec![sample; random.pick(&[0, 1, 1, 2])]);
    if random.one_in(2) {
        return change_named(item, "sampledValue", &samples);
    }
    let meter = match random.below(4) {
        0 => record([]),
        1 => record([("sampledValue", samples.clone()), ("sampledValue", samples)]),
        2 => random_leaf(random),
        _ => record([("sampledValue", samples)]),
    };
    change_named(item, "meterValue", &Item::List(vec![meter; random.pick(&[0, 1, 2])]));
}

/// Something else than the array of four.
fn odd_head(item: &mut Item, random: &mut Random) {
    let Item::List(four) = item else { return };
    if four.len() != 4 {
        return;
    }
    match random.below(7) {
        0 => four[0] = leaf(random.pick(&["3", "4", "2.0", "2e0", "02", "-2", "\"2\"", "20", "null", "[2]"])),
        1 => four[1] = random_json(random, 1),
        2 => four[2] = leaf(quoted(random.pick(&["Heartbeat", "transactionEvent", "Transaction\\u0045vent", ""]))),
        3 => four[3] = random_json(random, 1),
        4 => drop(four.pop()),
        5 => four.push(random_json(random, 1)),
        _ => *item = Item::List(vec![item.clone()]),
    }
}

fn odd_id(item: &mut Item, random: &mut Random) {
    let other = unlawful_transmission(random);
    let id = id_of(&other);
    if random.one_in(3) {
        return change_named(item, "transactionId", &leaf(quoted(&id[..14])));
    }
    if let Item::List(four) = item {
        if four.len() == 4 {
            four[1] = leaf(quoted(&id));
        }
    }
}

const FAULTS: [fn(&mut Item, &mut Random); 11] = [
    double_member, drop_member, rename_member, other_kind, odd_number, broken_leaf, odd_string, odd_date, odd_length,
    odd_head, odd_id,
];

// ---------------------------------------------------------------------------------------------------------------------
// Writing and breaking
// ---------------------------------------------------------------------------------------------------------------------

/// A text, and the places where white space may stand.
struct Text {
    bytes: Vec<u8>,
    gaps: Vec<usize>,
    /// At one in so many gaps there is white space; 0 for none.
    spaced: usize,
}

impl Text {
    fn gap(&mut self, random: &mut Random) {
        while self.spaced > 0 && random.one_in(self.spaced + 1) {
            self.bytes.push(random.pick(b" \t\n\r"));
        }
        self.gaps.push(self.bytes.len());
    }

    fn sign(&mut self, byte: u8, random: &mut Random) {
        self.gap(random);
        self.bytes.push(byte);
        self.gap(random);
    }

    fn write(&mut self, item: &Item, random: &mut Random) {
        match item {
            Item::Leaf(text) => self.bytes.extend(text),
            Item::List(items) => {
                self.sign(b'[', random);
                for (place, item) in items.iter().enumerate() {
                    if place > 0 {
                        self.sign(b',', random);
                    }
                    self.write(item, random);
                }
                self.sign(b']', random);
            }
            Item::Record(members) => {
                self.sign(b'{', random);
                for (place, (name, item)) in members.iter().enumerate() {
                    if place > 0 {
                        self.sign(b',', random);
                    }
                    self.bytes.extend(name);
                    self.sign(b':', random);
                    self.write(item, random);
                }
                self.sign(b'}', random);
            }
        }
    }
}

fn render(item: &Item, random: &mut Random, spaced: usize) -> Text {
    let mut text = Text { bytes: Vec::new(), gaps: Vec::new(), spaced };
    text.gap(random);
    text.write(item, random);
    text.gap(random);
    text
}

/// A text of about the longest length: padded with white space, or with a long string in an unlisted member.
fn padded(item: &mut Item, random: &mut Random) -> Vec<u8> {
    let aim = LONGEST - 2 + random.below(5);
    let with_string = random.one_in(2);
    if with_string {
        insert_member(item, random, quoted("pad"), leaf(quoted("")));
    }
    let spaced = random.pick(&[0, 0, 8]);
    let Text { mut bytes, gaps, .. } = render(item, random, spaced);
    let inside = bytes.windows(7).position(|w| w == b"\"pad\":\"").map(|place| place + 7);
    let place = if with_string { inside } else { Some(random.pick(&gaps)) };
    if let Some(place) = place {
        let byte = if with_string { random.pick(b"a0[{\x80") } else { random.pick(b" \t\n\r") };
        let missing = aim.saturating_sub(bytes.len());
        bytes.splice(place..place, std::iter::repeat_n(byte, missing));
    }
    bytes
}

/// Bytes that matter to a reader of JSON.
fn random_byte(random: &mut Random) -> u8 {
    if random.one_in(4) {
        return random.next() as u8;
    }
    random.pick(b"[]{}:,\"\\/0129-+.eEutfn \t\n\r\x00\x1F\x7F\x80\xFF")
}

const ENDS: [&[u8]; 10] = [b" ", b"\r", b"]", b"}", b",", b"0", b"null", b"\0", b" []", b"\xEF\xBB\xBF"];
const FRONTS: [&[u8]; 5] = [b"\xEF\xBB\xBF", b" ", b"[", b"{", b"\xFE\xFF"];
const SMALL: [&[u8]; 10] = [b"", b" ", b"2", b"[]", b"{}", b"\"\"", b"-", b"[2]", b"\n", b"\xEF\xBB\xBF[]"];

fn break_bytes(text: &mut Vec<u8>, random: &mut Random) {
    if text.is_empty() {
        return text.push(random_byte(random));
    }
    let (place, other) = (random.below(text.len()), random.below(text.len()));
    match random.below(9) {
        0 | 1 => text[place] = random_byte(random),
        2 => drop(text.remove(place)),
        3 => text.insert(place, random_byte(random)),
        4 => text.swap(place, other),
        5 if place > 0 => text.swap(place - 1, place),
        6 => text.truncate(place),
        7 => text.extend(random.pick(&ENDS)),
        _ => *text = [random.pick(&FRONTS), text].concat(),
    }
}

/// Texts that have little to do with frames.
fn other_text(random: &mut Random) -> Vec<u8> {
    match random.below(5) {
        0 => (0..random.below(30)).map(|_| random_byte(random)).collect(),
        1 => render(&random_json(random, 4), random, 6).bytes,
        2 => {
            let height = 7 + random.below(4);
            render(&nest(random, height), random, 6).bytes
        }
        3 => random.pick(&[&b"["[..], b"{\"a\":", b"[[", b" [1,"]).repeat(random.below(400)),
        _ => random.pick(&SMALL).to_vec(),
    }
}

/// One text. What is done to it is up to chance: nothing at all, what leaves it a frame, faults, or broken bytes.
fn random_text(random: &mut Random) -> Vec<u8> {
    let plan = random.below(100);
    if plan < 4 {
        return other_text(random);
    }
    let mut item = written(&if plan < 12 { unlawful_transmission(random) } else { lawful_transmission(random) });
    if plan < 20 {
        return render(&item, random, 0).bytes;
    }
    if random.one_in(2) {
        (0..random.below(3)).for_each(|_| add_unlisted(&mut item, random));
    }
    if plan >= 45 && plan < 75 {
        (0..random.pick(&[1, 1, 1, 2, 3])).for_each(|_| random.pick(&FAULTS)(&mut item, random));
    }
    if plan >= 70 && plan < 85 {
        add_deep(&mut item, random);
    }
    if random.one_in(2) {
        shuffle(&mut item, random);
    }
    let spaced = random.pick(&[0, 0, 2, 6, 20]);
    let mut text = if random.one_in(12) { padded(&mut item, random) } else { render(&item, random, spaced).bytes };
    if plan >= 80 && !random.one_in(4) {
        (0..random.pick(&[1, 1, 2, 3])).for_each(|_| break_bytes(&mut text, random));
    }
    text
}

// ---------------------------------------------------------------------------------------------------------------------
// The comparisons
// ---------------------------------------------------------------------------------------------------------------------

unsafe extern "C" {
    fn makwirfa_frame_check(text: *const u8, length: usize) -> u32;
}

/// The answer of the C function. What stands after the text would end many texts that are cut off.
fn ask(text: &[u8], memory: &mut Vec<u8>) -> u32 {
    memory.clear();
    memory.extend(text);
    memory.extend(b"\"}]}]}]");
    // SAFETY: the pointer is to at least so many bytes, which nothing else uses.
    unsafe { makwirfa_frame_check(memory.as_ptr(), text.len()) }
}

fn number_of(answer: &Result<Transmission, u32>) -> u32 {
    answer.as_ref().err().copied().unwrap_or(0)
}

/// The answers so far, and how many of them differ.
struct Tally {
    texts: usize,
    answers: BTreeMap<u32, usize>,
    differences: usize,
    memory: Vec<u8>,
}

impl Tally {
    fn new() -> Tally {
        Tally { texts: 0, answers: BTreeMap::new(), differences: 0, memory: Vec::new() }
    }

    fn compare(&mut self, text: &[u8]) {
        let (here, there) = (number_of(&read(text)), ask(text, &mut self.memory));
        *self.answers.entry(here).or_insert(0) += 1;
        if here != there {
            self.differences += 1;
            if self.differences <= 20 {
                println!("text {}: {here} here, {there} there: {}", self.texts, text.escape_ascii());
            }
        }
        self.texts += 1;
    }

    /// Prints how often each answer occurred. Whether each did in at least 1 of 100 texts.
    fn spread(&self) -> bool {
        let mut enough = true;
        for number in [0, 51, 52, 53, 54, 55, 56] {
            let often = self.answers.get(&number).copied().unwrap_or(0);
            let name = if number == 0 { "granted".to_string() } else { format!("refused {number}") };
            println!("{name:<10} {often:>9}  {:>5.2} %", often as f64 * 100.0 / self.texts as f64);
            enough &= often * 100 >= self.texts;
        }
        enough
    }
}

/// Every text that one byte makes of a frame: cut off, left out, changed, put in.
fn against_library_nearby() -> bool {
    let mut tally = Tally::new();
    let full = lawful_transmission(&mut Random(SEED));
    let bare = Transmission { kind: "Updated", number: 7, register: None, ..full.clone() };
    let full = Transmission { kind: "Ended", number: 10, register: Some(LARGEST_REGISTER), ..full };
    for sent in [full, bare] {
        let text = render(&written(&sent), &mut Random(SEED), 0).bytes;
        for place in 0..=text.len() {
            let (front, back) = text.split_at(place);
            tally.compare(front);
            tally.compare(&[front, back.get(1..).unwrap_or(&[])].concat());
            for byte in 0..=255 {
                tally.compare(&[front, &[byte], back].concat());
                tally.compare(&[front, &[byte], back.get(1..).unwrap_or(&[])].concat());
            }
        }
    }
    println!("nearby: {} texts, {} differences", tally.texts, tally.differences);
    tally.differences == 0
}

fn against_library(count: usize, seed: u64) -> bool {
    let mut random = Random(seed);
    let mut tally = Tally::new();
    (0..count).for_each(|_| tally.compare(&random_text(&mut random)));
    let enough = tally.spread() || count < 10_000;
    if !enough {
        println!("an answer occurs in less than 1 % of the texts");
    }
    println!("frames: {count} texts, {} differences (seed {seed})", tally.differences);
    tally.differences == 0 && enough
}

fn sentence(number: u32) -> &'static str {
    match number {
        51 => "the text is longer than 1,024 bytes",
        52 => "arrays and objects are nested deeper than 8",
        53 => "the text is not JSON",
        54 => "the text is not a call of TransactionEvent",
        55 => "a member that is read stands twice or is missing",
        _ => "a value is not of its form, or values contradict each other",
    }
}

fn report_line(line: usize, answer: &Result<Transmission, u32>) -> String {
    match answer {
        Err(number) => format!("line {line}: refused {number}: {}", sentence(*number)),
        Ok(sent) => {
            let Transmission { station, session, number, attempt, kind, reason, .. } = sent;
            let time = written_time(sent.time);
            let register = sent.register.map_or("no register".to_string(), |wh| format!("register {wh} Wh"));
            let offline = if sent.offline { ", offline" } else { "" };
            format!(
                "line {line}: station {station}, session {session}, number {number}, attempt {attempt}: \
                 {kind} at {time}, {reason}, {register}{offline}"
            )
        }
    }
}

/// What the program prints, given these bytes.
fn output_of(program: &str, input: Vec<u8>) -> Vec<u8> {
    let started = Command::new(program).arg("frames").stdin(Stdio::piped()).stdout(Stdio::piped()).spawn();
    let mut child = started.unwrap_or_else(|error| fail(&format!("{program}: {error}")));
    let mut stdin = child.stdin.take().expect("a pipe");
    // A program that stops reading is told by what it prints.
    let writer = thread::spawn(move || drop(stdin.write_all(&input)));
    let output = child.wait_with_output().expect("its output");
    writer.join().expect("the writer");
    if !output.status.success() {
        fail(&format!("{program} frames: {}", output.status));
    }
    output.stdout
}

fn against_desk(program: &str, count: usize, seed: u64) -> bool {
    let mut random = Random(seed);
    let (mut input, mut expected, mut granted) = (Vec::new(), Vec::new(), 0);
    while expected.len() < count {
        let text = random_text(&mut random);
        if !text.contains(&b'\n') {
            let answer = read(&text);
            granted += usize::from(answer.is_ok());
            expected.push(report_line(expected.len() + 1, &answer));
            input.extend(text);
            input.push(b'\n');
        }
    }
    expected.push(String::new());
    expected.push(format!("frames read:      {granted:>10}"));
    expected.push(format!("frames refused:   {:>10}\n", count - granted));
    let output = output_of(program, input.clone());
    let output = String::from_utf8_lossy(&output);
    let got: Vec<&str> = output.splitn(expected.len(), '\n').collect();
    let wrong: Vec<usize> = (0..expected.len()).filter(|&n| got.get(n) != Some(&expected[n].as_str())).collect();
    for &n in wrong.iter().take(20) {
        println!("text:  {}", input.split(|&b| b == b'\n').nth(n).unwrap_or(b"").escape_ascii());
        println!("here:  {:?}\nthere: {:?}", expected[n], got.get(n).unwrap_or(&"nothing"));
    }
    println!("desk frames: {count} lines, {} differences (seed {seed})", wrong.len());
    wrong.is_empty()
}

/// The text that a line of the conformance table writes.
fn decoded(line: &[u8]) -> Option<Vec<u8>> {
    let (mut text, mut rest) = (Vec::new(), line);
    while let Some((&byte, after)) = rest.split_first() {
        if byte != b'%' {
            text.push(byte);
            rest = after;
        } else if after.first() == Some(&b'*') {
            let count = digits_worth(after.get(1..5)?)? as usize;
            text.extend(vec![*after.get(5)?; count]);
            rest = &after[6..];
        } else {
            let digits = std::str::from_utf8(after.get(..2)?).ok()?;
            text.push(u8::from_str_radix(digits, 16).ok()?);
            rest = &after[2..];
        }
    }
    Some(text)
}

fn against_table(path: &str) -> bool {
    let table = fs::read(path).unwrap_or_else(|error| fail(&format!("{path}: {error}")));
    let (mut texts, mut wrong) = (0, 0);
    for (line, bytes) in (1..).zip(table.split(|&b| b == b'\n')) {
        if bytes.is_empty() || bytes.starts_with(b"# ") {
            continue;
        }
        let mut halves = bytes.splitn(2, |&b| b == b' ');
        let verdict = String::from_utf8_lossy(halves.next().unwrap_or(b"")).into_owned();
        let text = halves.next().and_then(decoded).unwrap_or_else(|| fail(&format!("{path}, line {line}")));
        let got = match number_of(&read(&text)) {
            number @ 51..=53 => number.to_string(),
            _ => "json".to_string(),
        };
        texts += 1;
        if got != verdict {
            wrong += 1;
            println!("{path}, line {line}: expected {verdict}, got {got}");
        }
    }
    println!("table: {texts} texts, {wrong} differences");
    wrong == 0 && texts > 0
}

fn dump(count: usize, seed: u64) -> bool {
    let mut random = Random(seed);
    let mut out = std::io::BufWriter::new(std::io::stdout().lock());
    for index in 0..count {
        let text = random_text(&mut random);
        let line = report_line(index + 1, &read(&text));
        writeln!(out, "{}\n{line}", text.escape_ascii()).expect("the output");
    }
    true
}

fn fail(why: &str) -> ! {
    eprintln!("frames: {why}");
    exit(2)
}

/// COUNT and SEED.
fn numbers(words: &[String], count: usize) -> (usize, u64) {
    let number = |place: usize, default: u64| {
        words.get(place).map_or(default, |word| word.parse().unwrap_or_else(|_| fail(&format!("{word}: no number"))))
    };
    (number(0, count as u64) as usize, number(1, SEED))
}

fn main() {
    let words: Vec<String> = env::args().skip(1).collect();
    let first = words.first().map_or("", String::as_str);
    let fine = match (first, words.len()) {
        ("--table", 2) => against_table(&words[1]),
        ("--desk", 2..) => {
            let (count, seed) = numbers(&words[2..], LINES);
            against_desk(&words[1], count, seed)
        }
        ("--dump", _) => {
            let (count, seed) = numbers(&words[1..], LINES);
            dump(count, seed)
        }
        _ => {
            let (count, seed) = numbers(&words, TEXTS);
            against_library_nearby() & against_library(count, seed)
        }
    };
    exit(i32::from(!fine))
}
