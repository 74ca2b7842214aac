//! What is shown of a NEGOEX token, in plain Rust: its listing and what is left of a damaged capture (README.md), and the table, the entries, the octets at fault and the coverage
//! of crates/host/negoex.h.

use crate::message::{u16_at, u32_at, what, Fault, Field, Message, LONGEST};

/// The octets of a damaged token that can be shown: its messages with their places, up to the first fault, and that fault with the place of its message.
pub struct Token<'a> {
    pub octets: &'a [u8],
    pub messages: Vec<(usize, Message<'a>)>,
    pub fault: Option<(usize, Fault)>,
}

impl<'a> Token<'a> {
    /// The structural reading.
    pub fn read(octets: &'a [u8]) -> Token<'a> {
        let mut token = Token { octets, messages: Vec::new(), fault: None };
        if octets.len() > LONGEST {
            let field = Field { what: what::REST, index: 0, at: LONGEST, length: 1 };
            token.fault = Some((0, Fault { number: 1, field }));
            return token;
        }
        let mut place = 0;
        while place < octets.len() || token.messages.is_empty() {
            match token.next(&octets[place..]) {
                Ok(message) => {
                    token.messages.push((place, message));
                    place += message.octets.len();
                }
                Err(fault) => {
                    token.fault = Some((place, fault));
                    break;
                }
            }
        }
        token
    }

    /// The message at the front of `rest`, behind those read so far: the first gives number and conversation.
    fn next(&self, rest: &'a [u8]) -> Result<Message<'a>, Fault> {
        let message = Message::cut(rest)?;
        let (_, first) = self.messages.first().copied().unwrap_or((0, message));
        message.follows(u64::from(first.sequence()) + self.messages.len() as u64, first.conversation())?;
        message.check()?;
        Ok(message)
    }

    /// The listing's lines, each with its line feed.
    pub fn lines(&self) -> Vec<String> {
        if let Some((place, fault)) = self.fault {
            return vec![format!("refused {} at={place}\n", fault.number)];
        }
        let mut lines = Vec::new();
        for (place, message) in &self.messages {
            message_lines(&mut lines, *place, *message);
        }
        lines.push(end_line(self.messages.len(), self.octets.len()));
        lines
    }

    /// Of each message its five fields, the number of its vectors, and each one's place and length: numbers of four octets.
    pub fn table(&self) -> Vec<u8> {
        let mut table = Vec::new();
        let mut put = |number: usize| table.extend((number as u32).to_le_bytes());
        for &(place, m) in &self.messages {
            let vectors: Vec<_> = m.header_vectors().into_iter().chain(m.values()).collect();
            let fields = [place, m.kind as usize, m.sequence() as usize, u32_at(m.octets, 16) as usize, m.octets.len()];
            fields.into_iter().for_each(&mut put);
            put(vectors.len());
            for v in vectors {
                put(if v.size == 0 { place } else { place + v.offset as usize });
                put(v.size as usize);
            }
        }
        table
    }

    /// The entries of an accepted token.
    pub fn entries(&self) -> Vec<u8> {
        let mut entries = Vec::new();
        for (number, &(place, m)) in self.messages.iter().enumerate() {
            let mut put = |f: Field, value: u32, at: usize| entries.extend(entry(f, number, value, at));
            put(Field { what: what::MESSAGE, index: 0, at: 0, length: m.octets.len() }, m.kind, place);
            m.fields().for_each(|f| put(f, value(m.octets, f), place + f.at));
            for v in m.header_vectors().into_iter().chain(m.values()) {
                let at = if v.size == 0 { place } else { place + v.offset as usize };
                put(Field { what: v.what, index: v.index, at: 0, length: v.size as usize }, v.offset, at);
            }
            let list = if m.kind < 2 { m.header_vectors()[0].offset as usize } else { 0 };
            for index in 0..m.schemes().count() {
                let f = Field { what: what::SCHEME, index, at: list + 16 * index, length: 16 };
                put(f, value(m.octets, f), place + f.at);
            }
            m.element_types().for_each(|f| put(f, value(m.octets, f), place + f.at));
            m.values().for_each(|v| put(v.field, v.offset, place + v.field.at));
        }
        entries
    }

    /// The octets at fault as one entry; none of an accepted token.
    pub fn fault_entry(&self) -> Vec<u8> {
        let Some((place, Fault { field, .. })) = self.fault else {
            return Vec::new();
        };
        entry(field, self.messages.len(), value(&self.octets[place..], field), place + field.at)
    }

    /// An octet for each of an accepted token's: whether it is covered.
    pub fn coverage(&self) -> Vec<u8> {
        let mut covered = vec![0; self.octets.len()];
        for &(place, m) in &self.messages {
            m.fields().filter(|f| f.what != what::PAD).for_each(|f| covered[place + f.at..place + f.at + f.length].fill(1));
            for v in m.header_vectors().into_iter().chain(m.values()).filter(|v| v.size > 0) {
                let start = place + v.offset as usize;
                covered[start..start + v.size as usize].fill(1);
            }
        }
        covered
    }
}

/// The number that stands in a field's first octets: four, or two where it has two. Octets that are no field have none.
fn value(octets: &[u8], f: Field) -> u32 {
    match f.length {
        _ if f.what == what::REST => 0,
        2 => u32::from(u16_at(octets, f.at)),
        _ => u32_at(octets, f.at),
    }
}

fn entry(f: Field, message: usize, value: u32, place: usize) -> Vec<u8> {
    [f.what, message as u32, f.index as u32, value, place as u32, f.length as u32].iter().flat_map(|x| x.to_le_bytes()).collect()
}

/// An id in its usual text.
pub fn id_text(id: &[u8]) -> String {
    let order = [3, 2, 1, 0, 16, 5, 4, 16, 7, 6, 16, 8, 9, 16, 10, 11, 12, 13, 14, 15];
    order.iter().map(|&k| if k == 16 { "-".to_string() } else { format!("{:02X}", id[k]) }).collect()
}

fn end_line(messages: usize, octets: usize) -> String {
    format!("end messages={messages} octets={octets}\n")
}

/// The lines of a message that has passed its checks.
fn message_lines(lines: &mut Vec<String>, place: usize, m: Message) {
    lines.push(format!("message at={place} seq={} type={} header={} length={}\n", m.sequence(), m.kind, u32_at(m.octets, 16), m.octets.len()));
    if m.kind >= 2 {
        lines.push(format!("scheme 0 {}\n", id_text(m.scheme())));
    }
    lines.extend(m.schemes().enumerate().map(|(k, id)| format!("scheme {k} {}\n", id_text(id))));
    for v in m.header_vectors() {
        let place = format!("at={} length={}\n", v.offset, v.size);
        match v.what {
            what::EXCHANGE => lines.push(format!("exchange {place}")),
            what::CHECKSUM_VALUE => lines.push(format!("checksum type={} {place}", u32_at(m.octets, 64) as i32)),
            what::ALERTS => lines.push(format!("error code={}\n", u32_at(m.octets, 56) as i32)),
            _ => (),
        }
    }
    for (kind, v) in m.element_types().map(|f| u32_at(m.octets, f.at)).zip(m.values()) {
        let place = format!("at={} length={}\n", v.offset, v.size);
        lines.push(match v.what {
            what::ALERT_VALUE => format!("alert {} type={kind} {place}", v.index),
            _ => format!("extension {} type={} {place}", v.index, kind as i32),
        });
    }
}

/// What is left of a damaged capture: the lines of every message that can be read by itself, and of each longest stretch between them.
pub fn recovered(file: &[u8]) -> Vec<String> {
    if file.len() > LONGEST {
        return vec!["refused 1 at=0\n".to_string()];
    }
    let mut lines = Vec::new();
    let (mut place, mut skipped, mut taken) = (0, 0, 0);
    while place < file.len() {
        match Message::cut(&file[place..]).and_then(|m| m.check().map(|()| m)) {
            Ok(message) => {
                skipped_line(&mut lines, skipped, place);
                message_lines(&mut lines, place, message);
                taken += 1;
                place += message.octets.len();
                skipped = place;
            }
            Err(_) => place += 1,
        }
    }
    skipped_line(&mut lines, skipped, place);
    lines.push(end_line(taken, file.len()));
    lines
}

fn skipped_line(lines: &mut Vec<String>, from: usize, to: usize) {
    if from < to {
        lines.push(format!("skipped at={from} length={}\n", to - from));
    }
}
