//! A peer: rows of bits in plain Rust. A table has, for each direction and version, the ends of the remote networks, of
//! the local networks and of both sides' port ranges in order, and for each interval between two ends a row with a bit
//! for each filter that lets it pass. A packet's four rows and its protocol's are joined word by word; the first bit left
//! names the filter. Rows are exact: nothing is confirmed.
//!
//! usage: bits RULES PACKETS PASSES ADDRESS           as `bench_pcef classify`, with its formats and its output
//!        bits RULES PACKETS PASSES ADDRESS worker    a worker with an `Arc` of the index of its own: a packet becomes a
//!                                                    row, and 32 rows are added up under a lock
//!        bits RULES build TIMES
use std::env;
use std::fs;
use std::net::IpAddr;
use std::sync::{Arc, Mutex};

#[derive(Clone, Copy, PartialEq)]
enum Place {
    Any,
    Assigned,
    Net(u128, u32, bool),
}

#[derive(Clone)]
struct Filter {
    rule: usize,
    directions: [bool; 2],
    proto: Option<u8>,
    remote: Place,
    local: Place,
    far: Vec<(u16, u16)>,
    near: Vec<(u16, u16)>,
}

/// An address as a number, and whether it is of version 6.
fn address(text: &str) -> (u128, bool) {
    match text.parse().unwrap() {
        IpAddr::V4(addr) => (u128::from(u32::from(addr)), false),
        IpAddr::V6(addr) => (u128::from(addr), true),
    }
}

fn place(text: &str) -> Place {
    match text {
        "any" => Place::Any,
        "assigned" => Place::Assigned,
        _ => {
            let (front, bits) = text.split_once('/').unwrap_or((text, ""));
            let (addr, is_wide) = address(front);
            let width = if is_wide { 128 } else { 32 };
            Place::Net(addr, width - bits.parse().unwrap_or(width), is_wide)
        }
    }
}

fn ranges(text: &str) -> Vec<(u16, u16)> {
    text.split(',')
        .map(|piece| {
            let (low, high) = piece.split_once('-').unwrap_or((piece, piece));
            (low.parse().unwrap(), high.parse().unwrap())
        })
        .collect()
}

fn filter(rule: usize, flow: &str, text: &str) -> Filter {
    let mut words = text.split(' ').skip(1).peekable();
    let is_in = words.next() == Some("in");
    let proto = words.next().unwrap().parse().ok();
    let mut side = || {
        words.next();
        let at = place(words.next().unwrap());
        let is_list = words.peek().is_some_and(|word| word.as_bytes()[0].is_ascii_digit());
        (at, if is_list { ranges(words.next().unwrap()) } else { vec![] })
    };
    let (first, second) = (side(), side());
    let ((local, near), (remote, far)) = if is_in { (first, second) } else { (second, first) };
    let directions = match (is_in, flow) {
        (true, _) | (false, "uplink") => [true, false],
        (false, "bidirectional") => [true, true],
        _ => [false, true],
    };
    Filter { rule, directions, proto, remote, local, far, near }
}

/// The names of the rules by precedence, and their filters in this order.
fn read_rules(path: &str) -> (Vec<String>, Vec<Filter>) {
    let text = fs::read_to_string(path).unwrap();
    let mut rules: Vec<(u32, String, Vec<(String, String)>)> = vec![];
    for line in text.lines() {
        let mut words = line.splitn(4, ' ');
        let (name, precedence) = (words.next().unwrap(), words.next().unwrap());
        if rules.last().is_none_or(|rule| rule.1 != name) {
            rules.push((precedence.parse().unwrap(), name.to_string(), vec![]));
        }
        let (flow, filter) = (words.next().unwrap(), words.next().unwrap());
        rules.last_mut().unwrap().2.push((flow.to_string(), filter.to_string()));
    }
    rules.sort_by_key(|rule| (rule.0, rule.1.clone()));
    let filters = rules.iter().enumerate().flat_map(|(number, rule)| rule.2.iter().map(move |(flow, text)| filter(number, flow, text)));
    (rules.iter().map(|rule| rule.1.clone()).collect(), filters.collect())
}

/// A value with an order, in intervals.
trait Value: Ord + Copy {
    const LEAST: Self;

    /// Its leading octet.
    fn front(self) -> usize;

    /// The one behind it, if there is one.
    fn next(self) -> Option<Self>;
}

macro_rules! values {
    ($($kind:ty)*) => {$(
        impl Value for $kind {
            const LEAST: Self = 0;

            fn front(self) -> usize {
                (self >> (<$kind>::BITS - 8)) as usize
            }

            fn next(self) -> Option<Self> {
                self.checked_add(1)
            }
        }
    )*};
}

values!(u16 u32 u128);

/// A row of bits for each interval, where each interval but the first begins, and how many begin below each leading octet.
struct Field<T> {
    begins: Vec<T>,
    below: [u32; 257],
    rows: Vec<u64>,
    words: usize,
}

impl<T: Value> Field<T> {
    /// Of these spans, some for each filter, each from its first value to its last.
    fn new(spans: &[Vec<(T, T)>]) -> Field<T> {
        let words = spans.len().div_ceil(64);
        let ends = spans.iter().flatten().flat_map(|(from, to)| [Some(*from), to.next()]);
        let mut begins: Vec<T> = ends.flatten().filter(|at| *at > T::LEAST).collect();
        begins.sort();
        begins.dedup();
        let mut rows = vec![0; (begins.len() + 1) * words];
        for (number, spans) in spans.iter().enumerate() {
            for (from, to) in spans {
                let [first, last] = [from, to].map(|end| begins.partition_point(|at| at <= end));
                for row in first..=last {
                    rows[row * words + number / 64] |= 1 << (number % 64);
                }
            }
        }
        let mut below = [0; 257];
        for (front, below) in below.iter_mut().enumerate() {
            *below = begins.partition_point(|at| at.front() < front) as u32;
        }
        Field { begins, below, rows, words }
    }

    #[inline]
    fn row(&self, value: T) -> &[u64] {
        let [from, to] = [0, 1].map(|next| self.below[value.front() + next] as usize);
        let place = from + self.begins[from..to].partition_point(|at| *at <= value);
        &self.rows[place * self.words..(place + 1) * self.words]
    }
}

/// The filters that apply in a direction, of one version. Filters for other local addresses than the session's are left
/// out; in version 6 those that look at the half of the address that isn't the session's have rows for it.
struct Part<T> {
    rules: Vec<u8>,
    protos: Vec<u64>,
    remote: Field<T>,
    local: Option<Field<T>>,
    far: Field<u16>,
    near: Field<u16>,
    far_without: Vec<u64>,
    near_without: Vec<u64>,
    words: usize,
}

/// An address of one of the versions.
trait Address: Value + TryFrom<u128> {
    const IS_WIDE: bool;

    fn of(value: u128) -> Self {
        Self::try_from(value).ok().expect("an address of the version")
    }
}

impl Address for u32 {
    const IS_WIDE: bool = false;
}

impl Address for u128 {
    const IS_WIDE: bool = true;
}

/// The first and the last address of a place.
fn span(place: Place, is_wide: bool, ue: u128) -> Option<(u128, u128)> {
    let greatest = if is_wide { u128::MAX } else { u128::from(u32::MAX) };
    let loose_of = |addr: u128, loose: u32| {
        let rest = if loose == 128 { u128::MAX } else { (1 << loose) - 1 };
        (addr & !rest, addr | rest)
    };
    match place {
        Place::Any => Some((0, greatest)),
        Place::Assigned => Some(loose_of(ue, if is_wide { 64 } else { 0 })),
        Place::Net(addr, loose, of_wide) => (of_wide == is_wide).then(|| loose_of(addr, loose)),
    }
}

fn port_spans(ranges: &[(u16, u16)]) -> Vec<(u16, u16)> {
    if ranges.is_empty() { vec![(0, u16::MAX)] } else { ranges.to_vec() }
}

fn bits(count: usize, is_set: impl Fn(usize) -> bool) -> Vec<u64> {
    let mut row = vec![0; count.div_ceil(64)];
    for number in 0..count {
        row[number / 64] |= u64::from(is_set(number)) << (number % 64);
    }
    row
}

impl<T: Address> Part<T> {
    fn new(filters: &[Filter], direction: usize, ue: u128) -> Part<T> {
        let (first, last) = span(Place::Assigned, T::IS_WIDE, ue).unwrap();
        let is_met = |place| span(place, T::IS_WIDE, ue).is_some_and(|(from, to)| from <= last && first <= to);
        let filters: Vec<&Filter> = filters.iter().filter(|filter| filter.directions[direction] && is_met(filter.local)).collect();
        let count = filters.len();
        let spans_of = |place: &dyn Fn(&Filter) -> Place| {
            let spans = filters.iter().map(|filter| span(place(filter), T::IS_WIDE, ue));
            spans.map(|span| span.map(|(from, to)| (T::of(from), T::of(to))).into_iter().collect()).collect::<Vec<_>>()
        };
        let is_whole = |filter: &&Filter| span(filter.local, T::IS_WIDE, ue).is_some_and(|(from, to)| from <= first && last <= to);
        Part {
            rules: filters.iter().map(|filter| filter.rule as u8).collect(),
            protos: (0..=255).flat_map(|proto| bits(count, |number| filters[number].proto.is_none_or(|own| own == proto))).collect(),
            remote: Field::new(&spans_of(&|filter| filter.remote)),
            local: (!filters.iter().all(is_whole)).then(|| Field::new(&spans_of(&|filter| filter.local))),
            far: Field::new(&filters.iter().map(|filter| port_spans(&filter.far)).collect::<Vec<_>>()),
            near: Field::new(&filters.iter().map(|filter| port_spans(&filter.near)).collect::<Vec<_>>()),
            far_without: bits(count, |number| filters[number].far.is_empty()),
            near_without: bits(count, |number| filters[number].near.is_empty()),
            words: count.div_ceil(64),
        }
    }

    #[inline]
    fn first(&self, header: &Header<T>) -> Option<u8> {
        let proto = usize::from(header.proto) * self.words;
        let protos = &self.protos[proto..proto + self.words];
        let remote = self.remote.row(header.remote);
        let local = self.local.as_ref().map_or(remote, |local| local.row(header.local));
        let (far, near) = match header.ports {
            Some((far, near)) => (self.far.row(far), self.near.row(near)),
            None => (&self.far_without[..], &self.near_without[..]),
        };
        let rows = remote.iter().zip(local).zip(far).zip(near).zip(protos);
        for (word, ((((remote, local), far), near), proto)) in rows.enumerate() {
            let left = remote & local & far & near & proto;
            if left != 0 {
                return Some(self.rules[word * 64 + left.trailing_zeros() as usize]);
            }
        }
        None
    }
}

struct Header<T> {
    remote: T,
    local: T,
    proto: u8,
    ports: Option<(u16, u16)>,
    octets: u64,
}

fn pair(octets: &[u8], at: usize) -> u16 {
    u16::from_be_bytes([octets[at], octets[at + 1]])
}

#[inline]
fn ports(direction: usize, octets: &[u8], at: usize, proto: u8) -> Option<(u16, u16)> {
    if !matches!(proto, 6 | 17 | 132) || octets.len() < at + 4 {
        return None;
    }
    let (source, target) = (pair(octets, at), pair(octets, at + 2));
    Some(if direction == 0 { (target, source) } else { (source, target) })
}

#[inline]
fn narrow(direction: usize, octets: &[u8]) -> Option<Header<u32>> {
    let fixed: &[u8; 20] = octets.first_chunk()?;
    let (own, total) = (usize::from(fixed[0] & 15) * 4, usize::from(pair(fixed, 2)));
    if fixed[0] >> 4 != 4 || own < 20 || total < own || total > octets.len() {
        return None;
    }
    let [source, target] = [12, 16].map(|at| u32::from_be_bytes([fixed[at], fixed[at + 1], fixed[at + 2], fixed[at + 3]]));
    let (remote, local) = if direction == 0 { (target, source) } else { (source, target) };
    let is_first = pair(fixed, 6) & 0x1fff == 0;
    let ports = if is_first { ports(direction, &octets[..total], own, fixed[9]) } else { None };
    Some(Header { remote, local, proto: fixed[9], ports, octets: total as u64 })
}

/// Of extension headers it knows the fragment header alone.
#[inline]
fn wide(direction: usize, octets: &[u8]) -> Option<Header<u128>> {
    let fixed: &[u8; 40] = octets.first_chunk()?;
    let total = 40 + usize::from(pair(fixed, 4));
    if total > octets.len() {
        return None;
    }
    let [source, target] = [8, 24].map(|at| u128::from_be_bytes(fixed[at..at + 16].try_into().unwrap()));
    let (remote, local) = if direction == 0 { (target, source) } else { (source, target) };
    let is_fragment = fixed[6] == 44;
    let proto = if is_fragment { *octets.get(40)? } else { fixed[6] };
    let ports = if is_fragment { None } else { ports(direction, &octets[..total], 40, proto) };
    Some(Header { remote, local, proto, ports, octets: total as u64 })
}

struct Index {
    narrow: [Part<u32>; 2],
    wide: [Part<u128>; 2],
    ue: u128,
    is_wide: bool,
}

enum Verdict {
    Rule(u8),
    Unmatched,
    Stray,
}

impl Index {
    fn new(filters: &[Filter], (ue, is_wide): (u128, bool)) -> Index {
        // The parts of the version that isn't the session's are empty.
        let (narrow, wide): (&[Filter], &[Filter]) = if is_wide { (&[], filters) } else { (filters, &[]) };
        Index {
            narrow: [0, 1].map(|direction| Part::new(narrow, direction, if is_wide { 0 } else { ue })),
            wide: [0, 1].map(|direction| Part::new(wide, direction, ue)),
            ue,
            is_wide,
        }
    }

    /// The verdict on a packet, and its octets; nothing where it is none.
    #[inline]
    fn judge(&self, direction: usize, octets: &[u8]) -> Option<(Verdict, u64)> {
        if octets.first()? >> 4 == 6 {
            let header = wide(direction, octets)?;
            let is_own = self.is_wide && (header.local ^ self.ue) >> 64 == 0;
            return Some((self.wide[direction].verdict(&header, is_own), header.octets));
        }
        let header = narrow(direction, octets)?;
        let is_own = !self.is_wide && u128::from(header.local) == self.ue;
        Some((self.narrow[direction].verdict(&header, is_own), header.octets))
    }
}

impl<T: Address> Part<T> {
    #[inline]
    fn verdict(&self, header: &Header<T>, is_own: bool) -> Verdict {
        if !is_own {
            return Verdict::Stray;
        }
        self.first(header).map_or(Verdict::Unmatched, Verdict::Rule)
    }
}

fn each(packets: &[u8], mut act: impl FnMut(usize, &[u8])) {
    let mut left = packets;
    while left.len() >= 3 {
        let length = usize::from(left[0]) + 256 * usize::from(left[1]);
        act(usize::from(left[2] != 0), &left[3..3 + length]);
        left = &left[3 + length..];
    }
}

/// What a packet counts for, until it is handed over.
struct Row {
    rule: Option<u8>,
    octets: u64,
}

/// Octets and packets of each rule, and of those that none fits.
type Books = Mutex<[(u64, u64); 65]>;

fn hand_over(rows: &mut Vec<Row>, books: &Books) {
    let mut books = books.lock().unwrap();
    for row in rows.drain(..) {
        let entry = &mut books[row.rule.map_or(64, usize::from)];
        *entry = (entry.0 + row.octets, entry.1 + 1);
    }
}

fn work(index: Arc<Index>, books: &Books, packets: &[u8], passes: u32) {
    let mut rows = Vec::with_capacity(32);
    for _ in 0..passes {
        each(packets, |direction, packet| {
            if let Some((verdict, octets)) = index.judge(direction, packet) {
                let rule = match verdict {
                    Verdict::Rule(rule) => Some(rule),
                    Verdict::Unmatched | Verdict::Stray => None,
                };
                rows.push(Row { rule, octets });
                if rows.len() == 32 {
                    hand_over(&mut rows, books);
                }
            }
        });
    }
    hand_over(&mut rows, books);
}

fn main() {
    let words: Vec<String> = env::args().skip(1).collect();
    let (names, filters) = read_rules(&words[0]);
    let passes: u32 = words[2].parse().unwrap();
    let ue = address(words.get(3).map_or("10.0.0.2", |word| word));
    if words[1] == "build" {
        for _ in 0..passes {
            std::hint::black_box(Index::new(&filters, ue));
        }
        return println!("rules {}", names.len());
    }
    let (index, file) = (Index::new(&filters, ue), fs::read(&words[1]).unwrap());
    let packets = &file[4..];
    if words.len() == 5 {
        let books = Mutex::new([(0, 0); 65]);
        work(Arc::new(index), &books, packets, passes);
        let sums = books.lock().unwrap().iter().fold((0, 0), |sums, one| (sums.0 + one.0, sums.1 + one.1));
        return println!("rows {} octets {}", sums.1, sums.0);
    }
    if passes == 0 {
        let mut lines = String::new();
        each(packets, |direction, octets| {
            if let Some((verdict, _)) = index.judge(direction, octets) {
                lines += match verdict {
                    Verdict::Rule(rule) => &names[usize::from(rule)],
                    Verdict::Unmatched => "unmatched",
                    Verdict::Stray => "stray",
                };
                lines.push('\n');
            }
        });
        return print!("{lines}");
    }
    let (mut passed, mut unmatched, mut stray, mut octets) = (0u64, 0u64, 0u64, 0u64);
    for _ in 0..passes {
        each(packets, |direction, packet| {
            if let Some((verdict, own)) = index.judge(direction, packet) {
                octets += own;
                match verdict {
                    Verdict::Rule(_) => passed += 1,
                    Verdict::Unmatched => unmatched += 1,
                    Verdict::Stray => stray += 1,
                }
            }
        });
    }
    println!("passed {passed} gated 0 unmatched {unmatched} stray {stray} octets {octets}");
}
