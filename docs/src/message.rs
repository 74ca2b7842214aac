//! One NEGOEX message in plain, safe Rust: the layouts of docs/RULES.md, its checks 2 to 6 and 10 to 13 with the octets at fault, and its vectors. Nothing is proved here: it is what
//! the proved library is compared with (docs/DAMAGE.md). What an entry is has the numbers of crates/host/negoex.h.

pub const SIGNATURE: &[u8] = b"NEGOEXTS";
pub const COMMON_HEADER: usize = 40;
pub const LONGEST: usize = 65_535;

pub fn u16_at(octets: &[u8], at: usize) -> u16 {
    u16::from_le_bytes([octets[at], octets[at + 1]])
}

pub fn u32_at(octets: &[u8], at: usize) -> u32 {
    u32::from_le_bytes([octets[at], octets[at + 1], octets[at + 2], octets[at + 3]])
}

/// What an entry is.
pub mod what {
    pub const MESSAGE: u32 = 0;
    pub const SIGNATURE: u32 = 1;
    pub const TYPE: u32 = 2;
    pub const SEQUENCE: u32 = 3;
    pub const HEADER_LENGTH: u32 = 4;
    pub const MESSAGE_LENGTH: u32 = 5;
    pub const CONVERSATION: u32 = 6;
    pub const RANDOM: u32 = 7;
    pub const VERSION: u32 = 8;
    pub const SCHEME_VECTOR: u32 = 9;
    pub const EXTENSION_VECTOR: u32 = 10;
    pub const SCHEME: u32 = 11;
    pub const EXCHANGE_VECTOR: u32 = 12;
    pub const CHECKSUM_HEADER: u32 = 13;
    pub const CHECKSUM_SCHEME: u32 = 14;
    pub const CHECKSUM_TYPE: u32 = 15;
    pub const CHECKSUM_VECTOR: u32 = 16;
    pub const ERROR_CODE: u32 = 17;
    pub const ALERT_VECTOR: u32 = 18;
    pub const PAD: u32 = 19;
    pub const SCHEMES: u32 = 20;
    pub const EXTENSIONS: u32 = 21;
    pub const EXTENSION_VALUE: u32 = 22;
    pub const EXCHANGE: u32 = 23;
    pub const CHECKSUM_VALUE: u32 = 24;
    pub const ALERTS: u32 = 25;
    pub const ALERT_VALUE: u32 = 26;
    pub const EXTENSION_TYPE: u32 = 27;
    pub const EXTENSION_VALUE_VECTOR: u32 = 28;
    pub const ALERT_TYPE: u32 = 29;
    pub const ALERT_VALUE_VECTOR: u32 = 30;
    pub const REST: u32 = 31;
}

/// A field of a message: what it is, its number in its list, where it stands in the message, and its length.
#[derive(Clone, Copy, Debug, PartialEq, Eq)]
pub struct Field {
    pub what: u32,
    pub index: usize,
    pub at: usize,
    pub length: usize,
}

const fn field(what: u32, at: usize, length: usize) -> Field {
    Field { what, index: 0, at, length }
}

const COMMON: [Field; 6] =
    [field(what::SIGNATURE, 0, 8), field(what::TYPE, 8, 4), field(what::SEQUENCE, 12, 4), field(what::HEADER_LENGTH, 16, 4), field(what::MESSAGE_LENGTH, 20, 4), field(what::CONVERSATION, 24, 16)];
const NEGO: [Field; 6] =
    [field(what::RANDOM, 40, 32), field(what::VERSION, 72, 8), field(what::SCHEME_VECTOR, 80, 6), field(what::PAD, 86, 2), field(what::EXTENSION_VECTOR, 88, 6), field(what::PAD, 94, 2)];
const EXCHANGE: [Field; 2] = [field(what::SCHEME, 40, 16), field(what::EXCHANGE_VECTOR, 56, 8)];
const VERIFY: [Field; 6] = [
    field(what::SCHEME, 40, 16),
    field(what::CHECKSUM_HEADER, 56, 4),
    field(what::CHECKSUM_SCHEME, 60, 4),
    field(what::CHECKSUM_TYPE, 64, 4),
    field(what::CHECKSUM_VECTOR, 68, 8),
    field(what::PAD, 76, 4),
];
const ALERT: [Field; 5] = [field(what::SCHEME, 40, 16), field(what::ERROR_CODE, 56, 4), field(what::ALERT_VECTOR, 60, 6), field(what::PAD, 66, 2), field(what::PAD, 68, 4)];

/// The header length of a type, which is at most 7.
pub fn header_of(kind: u32) -> usize {
    [96, 96, 64, 64, 64, 64, 80, 72][kind as usize]
}

/// The first check that a message fails, and the octets at fault.
#[derive(Clone, Copy, Debug, PartialEq, Eq)]
pub struct Fault {
    pub number: u32,
    pub field: Field,
}

fn fails(number: u32, field: Field) -> Result<(), Fault> {
    Err(Fault { number, field })
}

/// A vector of a message: the octets that it points at, and the field that says so.
#[derive(Clone, Copy)]
pub struct Vector {
    pub what: u32,
    pub index: usize,
    pub offset: u32,
    pub size: u64,
    pub field: Field,
}

/// A message that has passed checks 2 to 6: its octets, all of them.
#[derive(Clone, Copy)]
pub struct Message<'a> {
    pub octets: &'a [u8],
    pub kind: u32,
}

impl<'a> Message<'a> {
    /// Checks 2 to 6 of the message at the front of `rest`.
    pub fn cut(rest: &'a [u8]) -> Result<Message<'a>, Fault> {
        if rest.len() < COMMON_HEADER {
            fails(2, field(what::REST, 0, rest.len()))?;
        }
        if &rest[..8] != SIGNATURE {
            fails(3, COMMON[0])?;
        }
        let kind = u32_at(rest, 8);
        if kind > 7 {
            fails(4, COMMON[1])?;
        }
        let (header, length) = (u32_at(rest, 16) as usize, u32_at(rest, 20) as usize);
        if header != header_of(kind) {
            fails(5, COMMON[3])?;
        }
        if length < header || length > rest.len() {
            fails(6, COMMON[4])?;
        }
        Ok(Message { octets: &rest[..length], kind })
    }

    /// Checks 7 and 8, which compare the message with those before it. No number follows the last of 32 bits, so the expected one may be above it.
    pub fn follows(self, sequence: u64, conversation: &[u8]) -> Result<(), Fault> {
        if u64::from(self.sequence()) != sequence {
            fails(7, COMMON[2])?;
        }
        if self.conversation() != conversation {
            fails(8, COMMON[5])?;
        }
        Ok(())
    }

    /// Checks 10 to 13: the version; every vector, the header's first and the values only where their array keeps the rule; the signs; the checksum's two constants.
    pub fn check(self) -> Result<(), Fault> {
        if self.kind < 2 && self.octets[72..80] != [0; 8] {
            fails(10, NEGO[1])?;
        }
        for vector in self.header_vectors() {
            self.keeps_rule(vector)?;
        }
        for vector in self.values() {
            self.keeps_rule(vector)?;
        }
        if self.kind < 2 {
            if let Some(critical) = self.element_types().find(|f| (u32_at(self.octets, f.at) as i32) < 0) {
                fails(12, critical)?;
            }
        }
        if self.kind == 6 {
            if u32_at(self.octets, 56) != 20 {
                fails(13, VERIFY[1])?;
            }
            if u32_at(self.octets, 60) != 1 {
                fails(13, VERIFY[2])?;
            }
        }
        Ok(())
    }

    fn keeps_rule(self, v: Vector) -> Result<(), Fault> {
        let inside = v.offset as usize >= header_of(self.kind) && u64::from(v.offset) + v.size <= self.octets.len() as u64;
        if v.size > 0 && !inside {
            fails(11, v.field)?;
        }
        Ok(())
    }

    pub fn sequence(self) -> u32 {
        u32_at(self.octets, 12)
    }

    pub fn conversation(self) -> &'a [u8] {
        &self.octets[24..40]
    }

    /// The scheme of a message that names one: types 2 to 7.
    pub fn scheme(self) -> &'a [u8] {
        &self.octets[40..56]
    }

    /// All fields of the header, pads too, in order.
    pub fn fields(self) -> impl Iterator<Item = Field> {
        let own: &'static [Field] = match self.kind {
            0 | 1 => &NEGO,
            2..=5 => &EXCHANGE,
            6 => &VERIFY,
            _ => &ALERT,
        };
        COMMON.iter().chain(own).copied()
    }

    /// The vectors of the header, in order.
    pub fn header_vectors(self) -> Vec<Vector> {
        let array = |what, f: Field, size| Vector { what, index: 0, offset: u32_at(self.octets, f.at), size: u64::from(u16_at(self.octets, f.at + 4)) * size, field: f };
        let octets = |what, f: Field| Vector { what, index: 0, offset: u32_at(self.octets, f.at), size: u64::from(u32_at(self.octets, f.at + 4)), field: f };
        match self.kind {
            0 | 1 => vec![array(what::SCHEMES, NEGO[2], 16), array(what::EXTENSIONS, NEGO[4], 12)],
            2..=5 => vec![octets(what::EXCHANGE, EXCHANGE[1])],
            6 => vec![octets(what::CHECKSUM_VALUE, VERIFY[4])],
            _ => vec![array(what::ALERTS, ALERT[2], 12)],
        }
    }

    /// Where each extension or alert stands in the message: its twelve octets. The array keeps the rule.
    fn elements(self) -> impl Iterator<Item = usize> {
        let array = self.header_vectors().pop().filter(|v| v.what == what::EXTENSIONS || v.what == what::ALERTS);
        let (offset, count) = array.map_or((0, 0), |v| (v.offset as usize, v.size as usize / 12));
        (0..count).map(move |k| offset + 12 * k)
    }

    /// The types of the extensions or alerts.
    pub fn element_types(self) -> impl Iterator<Item = Field> {
        let what = if self.kind == 7 { what::ALERT_TYPE } else { what::EXTENSION_TYPE };
        self.elements().enumerate().map(move |(index, at)| Field { what, index, at, length: 4 })
    }

    /// The values of the extensions or alerts, as vectors.
    pub fn values(self) -> impl Iterator<Item = Vector> + 'a {
        let (what, of) = if self.kind == 7 { (what::ALERT_VALUE, what::ALERT_VALUE_VECTOR) } else { (what::EXTENSION_VALUE, what::EXTENSION_VALUE_VECTOR) };
        self.elements().enumerate().map(move |(index, at)| Vector {
            what,
            index,
            offset: u32_at(self.octets, at + 4),
            size: u64::from(u32_at(self.octets, at + 8)),
            field: Field { what: of, index, at: at + 4, length: 8 },
        })
    }

    /// The schemes that a checked NEGO lists, 16 octets each; none of another type.
    pub fn schemes(self) -> impl Iterator<Item = &'a [u8]> {
        let list = if self.kind < 2 { self.part(self.header_vectors()[0]) } else { &[] };
        list.chunks_exact(16)
    }

    /// The octets of a vector that keeps the rule.
    pub fn part(self, v: Vector) -> &'a [u8] {
        if v.size == 0 {
            return &[];
        }
        &self.octets[v.offset as usize..v.offset as usize + v.size as usize]
    }
}
