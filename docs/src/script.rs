//! Scripts in plain Rust: the grammar of README.md ("What a conversation looks like"), two ends, and the line that each call is answered with.

use crate::conversation::{Choice, Element, End, Id, Refusal, Speech};
use crate::shown::id_text;

const LONGEST_SCRIPT: usize = 262_143;
const LARGEST_ROOM: usize = 65_536;

/// A call, as a line says it.
enum Call {
    Open(usize, Option<Id>, Vec<Id>),
    Offer(Vec<u8>, Vec<Element>, bool),
    Reply(u16, Vec<u8>, Vec<Element>, bool),
    Metadata(Id, Vec<u8>),
    Speak(Speech),
    Read(Option<Vec<u8>>),
    Choose(u16, Speech),
}

// ---- fields ----

/// Hexadecimal digits, an even number of them, of either case.
fn hex(field: &str) -> Option<Vec<u8>> {
    let digits: Option<Vec<u8>> = field.chars().map(|c| c.to_digit(16).map(|d| d as u8)).collect();
    digits.filter(|d| d.len() % 2 == 0).map(|d| d.chunks(2).map(|pair| pair[0] << 4 | pair[1]).collect())
}

fn octets(field: &str) -> Option<Vec<u8>> {
    if field == "-" {
        return Some(Vec::new());
    }
    hex(field).filter(|octets| !octets.is_empty())
}

/// So many hexadecimal digits, most significant first.
fn number(field: &str, digits: usize) -> Option<u32> {
    let octets = hex(field).filter(|_| field.len() == digits)?;
    Some(octets.iter().fold(0, |sum, x| sum << 8 | u32::from(*x)))
}

fn marks(field: &str) -> Option<u16> {
    number(field, 4).map(|n| n as u16)
}

fn random(field: &str) -> Option<Vec<u8>> {
    hex(field).filter(|octets| octets.len() == 32)
}

/// An id in its usual text: the first three groups are stored least significant octet first.
fn id(field: &str) -> Option<Id> {
    let groups: Vec<&str> = field.split('-').collect();
    if groups.iter().map(|g| g.len()).ne([8, 4, 4, 4, 12]) {
        return None;
    }
    let mut id = Vec::new();
    for (k, group) in groups.into_iter().enumerate() {
        let mut part = hex(group)?;
        if k < 3 {
            part.reverse();
        }
        id.extend(part);
    }
    id.try_into().ok()
}

fn ids(fields: &[&str]) -> Option<Vec<Id>> {
    fields.iter().map(|f| id(f)).collect()
}

fn room(field: &str) -> Option<usize> {
    let good = (1..=5).contains(&field.len()) && field.bytes().all(|c| c.is_ascii_digit());
    field.parse().ok().filter(|n| good && *n <= LARGEST_ROOM)
}

/// TYPE:OCTETS, any number of them.
fn elements(fields: &[&str]) -> Option<Vec<Element>> {
    let element = |f: &&str| {
        let (kind, value) = f.split_once(':')?;
        Some(Element { kind: number(kind, 8)?, value: octets(value)? })
    };
    fields.iter().map(element).collect()
}

/// Extensions, with the word `test` in front of the first or not.
fn extensions(fields: &[&str]) -> Option<(Vec<Element>, bool)> {
    match fields {
        ["test"] => None,
        ["test", rest @ ..] => Some((elements(rest)?, true)),
        _ => Some((elements(fields)?, false)),
    }
}

fn speech(fields: &[&str]) -> Option<Speech> {
    Some(match fields {
        ["exchange", value] => Speech::Exchange(octets(value)?),
        ["verify", kind, value] => Speech::Verify(number(kind, 8)?, octets(value)?),
        ["alert", code, alerts @ ..] => Speech::Alert(number(code, 8)?, elements(alerts)?),
        _ => return None,
    })
}

fn end(field: &str) -> Option<bool> {
    match field {
        "i" => Some(false),
        "a" => Some(true),
        _ => None,
    }
}

/// A line's call and the end, the acceptor or not, that it is made at.
fn call(line: &[u8]) -> Option<(bool, Call)> {
    let text = std::str::from_utf8(line).ok().filter(|t| t.bytes().all(|c| (1..128).contains(&c)))?;
    let fields: Vec<&str> = text.split(' ').collect();
    if let ["open", "i", size, conversation, list @ ..] = &fields[..] {
        return Some((false, Call::Open(room(size)?, Some(id(conversation)?), ids(list)?)));
    }
    if let ["open", "a", size, list @ ..] = &fields[..] {
        return Some((true, Call::Open(room(size)?, None, ids(list)?)));
    }
    let acceptor = end(fields[0])?;
    let call = match &fields[1..] {
        ["offer", value, rest @ ..] => {
            let (extensions, test) = extensions(rest)?;
            Call::Offer(random(value)?, extensions, test)
        }
        ["reply", set, value, rest @ ..] => {
            let (extensions, test) = extensions(rest)?;
            Call::Reply(marks(set)?, random(value)?, extensions, test)
        }
        ["metadata", scheme, value] => Call::Metadata(id(scheme)?, octets(value)?),
        ["read"] => Call::Read(None),
        ["read", value] => Call::Read(Some(octets(value)?)),
        ["choose", set, rest @ ..] => Call::Choose(marks(set)?, speech(rest)?),
        rest => Call::Speak(speech(rest)?),
    };
    Some((acceptor, call))
}

// ---- playing ----

fn refused(r: Refusal) -> String {
    format!("refused {} at={}\n", r.number, r.place)
}

/// What was written: an end's transcript from a place on, and the choice where one was made.
fn wrote(end: &End, from: usize, choice: Option<Choice>) -> String {
    let octets = end.written_from(from);
    let mut line = format!("wrote {} ", octets.len());
    const DIGITS: &[u8; 16] = b"0123456789ABCDEF";
    octets.iter().for_each(|x| line.extend([DIGITS[usize::from(x >> 4)] as char, DIGITS[usize::from(x & 15)] as char]));
    if let Some(Choice { scheme, left }) = choice {
        line += &format!(" choice={} left={left}", id_text(&scheme));
    }
    line + "\n"
}

/// The two ends of a script: the initiator and the acceptor, where they are open.
#[derive(Default)]
struct Ends([Option<End>; 2]);

impl Ends {
    /// Makes a call; `None` where its end is not open.
    fn make(&mut self, acceptor: bool, call: Call) -> Option<String> {
        let other = self.0[usize::from(!acceptor)].as_ref().map_or(Vec::new(), |end| end.turn_so_far().to_vec());
        let slot = &mut self.0[usize::from(acceptor)];
        if let Call::Open(room, conversation, own) = call {
            return Some(match End::open(acceptor, room, conversation, own) {
                Ok(end) => {
                    *slot = Some(end);
                    "opened\n".to_string()
                }
                Err(r) => refused(r),
            });
        }
        let end = slot.as_mut()?;
        let from = end.used();
        let answer = match call {
            Call::Read(given) => {
                let token = given.unwrap_or(other);
                return Some(end.read(&token).map_or_else(refused, |n| format!("read messages={n} length={}\n", token.len())));
            }
            Call::Offer(random, extensions, test) => end.offer(&random, &extensions, test).map(|()| None),
            Call::Reply(marks, random, extensions, test) => end.reply(marks, &random, &extensions, test).map(Some),
            Call::Metadata(scheme, value) => end.metadata(scheme, &value).map(|()| None),
            Call::Speak(speech) => end.speak(&speech).map(|()| None),
            Call::Choose(marks, speech) => end.choose(marks, &speech).map(Some),
            Call::Open(..) => unreachable!("opened above"),
        };
        Some(answer.map_or_else(refused, |choice| wrote(end, from, choice)))
    }

    fn used(&self, acceptor: bool) -> usize {
        self.0[usize::from(acceptor)].as_ref().map_or(0, End::used)
    }
}

/// All lines that a script is answered with.
pub fn play(script: &[u8]) -> String {
    if script.len() > LONGEST_SCRIPT {
        return "refused 1 at=0\n".to_string();
    }
    let mut ends = Ends::default();
    let mut printed = String::new();
    for line in script.split(|c| *c == b'\n').filter(|line| !line.is_empty() && line[0] != b'#') {
        let answer = call(line).and_then(|(acceptor, call)| ends.make(acceptor, call));
        printed += answer.as_deref().unwrap_or("bad line\n");
    }
    printed + &format!("used i={} a={}\n", ends.used(false), ends.used(true))
}
