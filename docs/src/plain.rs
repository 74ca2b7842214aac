//! The structural reading of a NEGOEX token in plain, safe Rust: checks 1 to 13 of docs/RULES.md, with the same numbers and places as the proved reader, and nothing proved. It
//! is what the proved reader's time is measured against (docs/SPEED.md).

/// The first check that fails, and the token place of the message at fault.
#[derive(Clone, Copy, Debug, PartialEq, Eq)]
pub struct Refusal {
    pub number: u32,
    pub place: usize,
}

const SIGNATURE: u64 = u64::from_le_bytes(*b"NEGOEXTS");
const LONGEST: usize = 65_535;
const COMMON_HEADER: usize = 40;
const ID: u32 = 16;
const ELEMENT: u32 = 12;

#[derive(Clone, Copy)]
enum Layout {
    Nego,
    Exchange,
    Verify,
    Alert,
}

impl Layout {
    fn of(kind: u32) -> Option<Layout> {
        match kind {
            0 | 1 => Some(Layout::Nego),
            2..=5 => Some(Layout::Exchange),
            6 => Some(Layout::Verify),
            7 => Some(Layout::Alert),
            _ => None,
        }
    }

    fn header(self) -> u32 {
        match self {
            Layout::Nego => 96,
            Layout::Exchange => 64,
            Layout::Verify => 80,
            Layout::Alert => 72,
        }
    }
}

fn le_u16(octets: &[u8], at: usize) -> u16 {
    u16::from_le_bytes(octets[at..at + 2].try_into().unwrap())
}

fn le_u32(octets: &[u8], at: usize) -> u32 {
    u32::from_le_bytes(octets[at..at + 4].try_into().unwrap())
}

fn le_u64(octets: &[u8], at: usize) -> u64 {
    u64::from_le_bytes(octets[at..at + 8].try_into().unwrap())
}

/// A vector as it is stored: where it starts in its message, how many elements it has, and the size of one.
#[derive(Clone, Copy)]
struct Vector {
    offset: u32,
    count: u32,
    size: u32,
}

impl Vector {
    /// Offset and a 32-bit length.
    fn octets(from: &[u8], at: usize) -> Vector {
        Vector { offset: le_u32(from, at), count: le_u32(from, at + 4), size: 1 }
    }

    /// Offset and a 16-bit count.
    fn array(from: &[u8], at: usize, size: u32) -> Vector {
        Vector { offset: le_u32(from, at), count: u32::from(le_u16(from, at + 4)), size }
    }

    /// An empty vector keeps the rule; any other lies between its message's header and end.
    fn keeps_rule(self, header: u32, message: &[u8]) -> bool {
        let extent = u64::from(self.count) * u64::from(self.size);
        extent == 0 || (header <= self.offset && u64::from(self.offset) + extent <= message.len() as u64)
    }

    /// The octets of a vector that keeps the rule.
    fn of(self, message: &[u8]) -> &[u8] {
        if self.count == 0 {
            return &[];
        }
        let start = self.offset as usize;
        &message[start..start + self.count as usize * self.size as usize]
    }
}

/// Whether the value of each element of twelve octets, a type and a vector, keeps the rule.
fn values_keep_rule(header: u32, message: &[u8], array: &[u8]) -> bool {
    array.chunks_exact(ELEMENT as usize).all(|element| Vector::octets(element, 4).keeps_rule(header, message))
}

/// Checks 10 to 13 of a message.
fn check_body(layout: Layout, message: &[u8]) -> Result<(), u32> {
    let header = layout.header();
    match layout {
        Layout::Nego => {
            if le_u64(message, 72) != 0 {
                return Err(10);
            }
            let extensions = Vector::array(message, 88, ELEMENT);
            if !Vector::array(message, 80, ID).keeps_rule(header, message) || !extensions.keeps_rule(header, message) {
                return Err(11);
            }
            let array = extensions.of(message);
            if !values_keep_rule(header, message, array) {
                return Err(11);
            }
            if array.chunks_exact(ELEMENT as usize).any(|element| (le_u32(element, 0) as i32) < 0) {
                return Err(12);
            }
        }
        Layout::Exchange => {
            if !Vector::octets(message, 56).keeps_rule(header, message) {
                return Err(11);
            }
        }
        Layout::Verify => {
            if !Vector::octets(message, 68).keeps_rule(header, message) {
                return Err(11);
            }
            if le_u32(message, 56) != 20 || le_u32(message, 60) != 1 {
                return Err(13);
            }
        }
        Layout::Alert => {
            let alerts = Vector::array(message, 60, ELEMENT);
            if !alerts.keeps_rule(header, message) || !values_keep_rule(header, message, alerts.of(message)) {
                return Err(11);
            }
        }
    }
    Ok(())
}

/// Checks 2 to 13 of the message at the front of `rest`: its length, or the number that refuses it.
fn read_message(rest: &[u8], sequence: u64, conversation: &[u8]) -> Result<usize, u32> {
    if rest.len() < COMMON_HEADER {
        return Err(2);
    }
    if le_u64(rest, 0) != SIGNATURE {
        return Err(3);
    }
    let Some(layout) = Layout::of(le_u32(rest, 8)) else {
        return Err(4);
    };
    let header = le_u32(rest, 16);
    if header != layout.header() {
        return Err(5);
    }
    let length = le_u32(rest, 20);
    if length < header || rest.len() < length as usize {
        return Err(6);
    }
    if u64::from(le_u32(rest, 12)) != sequence {
        return Err(7);
    }
    if rest[24..40] != *conversation {
        return Err(8);
    }
    check_body(layout, &rest[..length as usize])?;
    Ok(length as usize)
}

/// The structural reading: the number of messages, or the first refusal.
pub fn read_token(token: &[u8]) -> Result<u32, Refusal> {
    if LONGEST < token.len() {
        return Err(Refusal { number: 1, place: 0 });
    }
    if token.len() < COMMON_HEADER {
        return Err(Refusal { number: 2, place: 0 });
    }
    let mut sequence = u64::from(le_u32(token, 12));
    let conversation = &token[24..40];
    let mut place = 0;
    let mut messages = 0;
    while place < token.len() {
        let length = read_message(&token[place..], sequence, conversation).map_err(|number| Refusal { number, place })?;
        place += length;
        sequence += 1;
        messages += 1;
    }
    Ok(messages)
}
