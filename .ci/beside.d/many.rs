//! A peer: a plain program that answers the lines of `scripts.py` for many sessions, octet for octet as `pcef many` does,
//! and knows no others: one thread, std's map, a parser by hand, no faults, no reports. It stops at a line that it doesn't
//! know.
//!
//! usage: many < LINES > ANSWERS
use std::collections::HashMap;
use std::io::{self, Read, Write};

/// A rule of one filter: downlink packets of a protocol from a port.
struct Rule {
    name: Vec<u8>,
    precedence: u32,
    proto: u8,
    port: u16,
}

struct Waiting {
    rule: Option<u8>,
    octets: u16,
}

#[derive(Default)]
struct Session {
    rules: Vec<Rule>,
    generation: u32,
    held: u32,
    waiting: Vec<Waiting>,
    counted: u64,
}

fn number(text: &[u8]) -> u32 {
    text.iter().take_while(|octet| octet.is_ascii_digit()).fold(0, |sum, octet| sum * 10 + u32::from(octet - b'0'))
}

/// What stands behind the first `mark`.
fn behind<'a>(text: &'a [u8], mark: &[u8]) -> &'a [u8] {
    let place = text.windows(mark.len()).position(|window| window == mark).expect("a member that is needed");
    &text[place + mark.len()..]
}

fn word(text: &[u8]) -> &[u8] {
    &text[..text.iter().position(|octet| *octet == b'"').expect("the end of a word")]
}

fn digit(octet: u8) -> u8 {
    match octet {
        b'0'..=b'9' => octet - b'0',
        b'a'..=b'f' => octet - b'a' + 10,
        _ => panic!("no hexadecimal digit"),
    }
}

fn push_number(text: &mut Vec<u8>, number: u32) {
    let mut digits = [0; 10];
    let (mut left, mut at) = (number, 10);
    loop {
        at -= 1;
        digits[at] = b'0' + (left % 10) as u8;
        left /= 10;
        if left == 0 {
            break;
        }
    }
    text.extend_from_slice(&digits[at..]);
}

/// The rule that fits a downlink packet of 10.0.0.2, and the packet's octets.
fn judged(session: &Session, packet: &[u8]) -> Waiting {
    let header = usize::from(packet[0] & 15) * 4;
    let octets = u16::from_be_bytes([packet[2], packet[3]]);
    let is_whole = packet[0] >> 4 == 4 && header >= 20 && usize::from(octets) >= header && usize::from(octets) <= packet.len();
    assert!(is_whole && packet[16..20] == [10, 0, 0, 2], "a packet of the session");
    let has_ports = matches!(packet[9], 6 | 17 | 132) && u16::from_be_bytes([packet[6], packet[7]]) & 0x1fff == 0 && usize::from(octets) >= header + 4;
    let port = u16::from_be_bytes([packet[header], packet[header + 1]]);
    let place = session.rules.iter().position(|rule| has_ports && rule.proto == packet[9] && rule.port == port);
    Waiting { rule: place.map(|place| place as u8), octets }
}

fn take(session: &mut Session, digits: &[u8], answers: &mut Vec<u8>) {
    let mut packet = [0; 2048];
    let count = digits.len() / 2;
    for (octet, pair) in packet.iter_mut().zip(digits.chunks_exact(2)) {
        *octet = digit(pair[0]) << 4 | digit(pair[1]);
    }
    session.waiting.push(judged(session, &packet[..count]));
    answers.extend_from_slice(b"{\"ok\":true,\"waiting\":");
    push_number(answers, session.waiting.len() as u32);
    answers.extend_from_slice(b"}\n");
}

fn flush(session: &mut Session, answers: &mut Vec<u8>) {
    answers.extend_from_slice(b"{\"ok\":true,\"reports\":[],\"verdicts\":[");
    for (place, row) in session.waiting.iter().enumerate() {
        if place > 0 {
            answers.push(b',');
        }
        match row.rule {
            None => {
                answers.extend_from_slice(b"{\"generation\":");
                push_number(answers, session.held);
                answers.extend_from_slice(b",\"verdict\":\"Unmatched\"}");
            }
            Some(rule) => {
                session.counted += u64::from(row.octets);
                answers.extend_from_slice(b"{\"bearer\":5,\"generation\":");
                push_number(answers, session.held);
                answers.extend_from_slice(b",\"rule\":\"");
                answers.extend_from_slice(&session.rules[usize::from(rule)].name);
                answers.extend_from_slice(b"\",\"verdict\":\"Passed\"}");
            }
        }
    }
    session.waiting.clear();
    answers.extend_from_slice(b"]}\n");
}

fn changed(session: &mut Session, front: &[u8], back: &[u8], answers: &mut Vec<u8>) {
    session.generation += 1;
    answers.extend_from_slice(front);
    push_number(answers, session.generation);
    answers.extend_from_slice(back);
}

fn install(session: &mut Session, text: &[u8], answers: &mut Vec<u8>) {
    let filter = behind(text, b"permit out ");
    let rule = Rule {
        name: word(behind(text, b"\"name\":\"")).to_vec(),
        precedence: number(behind(text, b"\"precedence\":")),
        proto: number(filter) as u8,
        port: number(behind(filter, b"from any ")) as u16,
    };
    let place = session.rules.partition_point(|other| other.precedence < rule.precedence);
    session.rules.insert(place, rule);
    changed(session, b"{\"bearer\":5,\"generation\":", b",\"ok\":true,\"reports\":[]}\n", answers);
}

fn answer(sessions: &mut HashMap<Box<[u8]>, Session>, line: &[u8], answers: &mut Vec<u8>) {
    let space = line.iter().position(|octet| *octet == b' ').expect("a name");
    let (name, text) = (&line[..space], &line[space + 1..]);
    answers.extend_from_slice(&line[..space + 1]);
    if text == b"{\"do\":\"open\"}" {
        sessions.insert(name.into(), Session::default());
        return answers.extend_from_slice(b"{\"ok\":true}\n");
    }
    let session = sessions.get_mut(name).expect("an open session");
    if let Some(digits) = text.strip_prefix(b"{\"do\":\"take\",\"worker\":0,\"dir\":\"down\",\"packet\":\"") {
        take(session, digits.strip_suffix(b"\"}").expect("the end of a line"), answers);
    } else if text == b"{\"do\":\"flush\",\"worker\":0}" {
        flush(session, answers);
    } else if text.starts_with(b"{\"do\":\"install\"") {
        install(session, text, answers);
    } else if text.starts_with(b"{\"do\":\"monitor\"") {
        changed(session, b"{\"generation\":", b",\"ok\":true,\"reports\":[]}\n", answers);
    } else if text == b"{\"do\":\"attach\"}" {
        session.held = session.generation;
        answers.extend_from_slice(b"{\"generation\":");
        push_number(answers, session.held);
        answers.extend_from_slice(b",\"ok\":true,\"worker\":0}\n");
    } else {
        panic!("no such line: {}", String::from_utf8_lossy(text));
    }
}

fn main() -> io::Result<()> {
    let (mut input, mut output) = (io::stdin().lock(), io::stdout().lock());
    let (mut sessions, mut answers) = (HashMap::new(), Vec::new());
    // The front of `block` is what is left of a line.
    let (mut block, mut left) = (vec![0; 131_072], 0);
    loop {
        let count = input.read(&mut block[left..left + 65_536])?;
        if count == 0 {
            return Ok(());
        }
        let (end, mut from) = (left + count, 0);
        while let Some(length) = block[from..end].iter().position(|octet| *octet == b'\n') {
            answer(&mut sessions, &block[from..from + length], &mut answers);
            from += length + 1;
        }
        block.copy_within(from..end, 0);
        left = end - from;
        assert!(left < 65_536, "a line that is too long");
        output.write_all(&answers)?;
        answers.clear();
    }
}
