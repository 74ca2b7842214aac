//! One end of a NEGOEX conversation in plain Rust: opening, writing, choosing and reading, by docs/RULES.md ("Who may send what" to "Refusals"). An end keeps what it has written and
//! read; a refused call changes nothing, but for the reading that 12 closes.

use crate::message::{header_of, Fault, Message, LONGEST, SIGNATURE};

pub type Id = [u8; 16];

/// A refusal: its number, and the token place of the message at fault; 0 for calls that read nothing.
#[derive(Clone, Copy, Debug, PartialEq, Eq)]
pub struct Refusal {
    pub number: u32,
    pub place: usize,
}

fn refuse<T>(number: u32) -> Result<T, Refusal> {
    Err(Refusal { number, place: 0 })
}

fn refuse_if(wrong: bool, number: u32) -> Result<(), Refusal> {
    if wrong {
        refuse(number)
    } else {
        Ok(())
    }
}

/// A choice: the scheme, and how many were left to choose from.
#[derive(Clone, Copy)]
pub struct Choice {
    pub scheme: Id,
    pub left: usize,
}

/// An extension or an alert that is to be written.
pub struct Element {
    pub kind: u32,
    pub value: Vec<u8>,
}

/// What a message of a later turn says.
pub enum Speech {
    Exchange(Vec<u8>),
    Verify(u32, Vec<u8>),
    Alert(u32, Vec<Element>),
}

impl Speech {
    fn elements(&self) -> &[Element] {
        match self {
            Speech::Alert(_, alerts) => alerts,
            _ => &[],
        }
    }
}

/// The tokens of a conversation: the initiator's first, the acceptor's reply, and all later ones.
#[derive(Clone, Copy, PartialEq, Eq)]
enum Turn {
    First,
    Reply,
    Later,
}

/// Whether a type may stand in a token of the initiator or the acceptor behind the types before it.
fn may_stand(turn: Turn, acceptor: bool, before: &[u32], kind: u32) -> bool {
    let exchange = if acceptor { 4 } else { 5 };
    let (nego, metadata) = if turn == Turn::First { (0, 2) } else { (1, 3) };
    match (turn, before.last()) {
        (Turn::Later, None) => kind == exchange || kind == 6 || kind == 7,
        (Turn::Later, Some(&last)) => (kind == 6 || kind == 7) && (last < 6 || last < kind),
        (_, None) => kind == nego,
        (_, Some(&last)) if last == nego || last == metadata => kind == metadata || kind == exchange,
        (_, Some(&last)) => last == exchange && kind == 6,
    }
}

/// What stands in one end's turn, as its writer or its reader keeps it.
#[derive(Clone, Default)]
struct Said {
    kinds: Vec<u32>,
    /// The NEGO's list, where the turn has one.
    list: Vec<Id>,
    /// Schemes that metadata named.
    described: Vec<Id>,
    /// The scheme of the exchange in the first token or the reply.
    exchange: Option<Id>,
}

/// The VERIFYs of one end: an early one counts only if its scheme, the AP_REQUEST's, is the one chosen.
#[derive(Clone, Copy, Default)]
struct Verified {
    early: bool,
    later: bool,
}

#[derive(Clone)]
pub struct End {
    acceptor: bool,
    own: Vec<Id>,
    room: usize,
    conversation: Option<Id>,
    transcript: Vec<u8>,
    messages: u32,
    closed: bool,
    /// Which token is next to be written, or is being written; an acceptor that has read nothing has none.
    turn: Option<Turn>,
    said: Said,
    turn_start: usize,
    /// The first token's AP_REQUEST, where there was one.
    request: Option<Id>,
    /// The schemes both list: at the acceptor in its own order, at the initiator in that of the reply.
    common: Vec<Id>,
    reply: Vec<Id>,
    chosen: Option<Id>,
    written: Verified,
    heard: Verified,
}

impl End {
    pub fn open(acceptor: bool, room: usize, conversation: Option<Id>, own: Vec<Id>) -> Result<End, Refusal> {
        let repeats = own.iter().enumerate().any(|(k, id)| own[..k].contains(id));
        refuse_if(own.is_empty() || own.len() > 16 || repeats, 19)?;
        Ok(End {
            acceptor,
            own,
            room: room.min(LONGEST),
            conversation,
            transcript: Vec::new(),
            messages: 0,
            closed: false,
            turn: if acceptor { None } else { Some(Turn::First) },
            said: Said::default(),
            turn_start: 0,
            request: None,
            common: Vec::new(),
            reply: Vec::new(),
            chosen: None,
            written: Verified::default(),
            heard: Verified::default(),
        })
    }

    pub fn used(&self) -> usize {
        self.transcript.len()
    }

    /// What this end wrote since its opening or the last token that it accepted.
    pub fn turn_so_far(&self) -> &[u8] {
        &self.transcript[self.turn_start..]
    }

    /// The octets of the transcript from a place on.
    pub fn written_from(&self, place: usize) -> &[u8] {
        &self.transcript[place..]
    }

    /// The initiator behind the reply: only a call that chooses is of this stage.
    fn must_choose(&self) -> bool {
        !self.acceptor && self.turn == Some(Turn::Later) && self.chosen.is_none()
    }

    fn counts(&self, verified: Verified, chosen: Option<Id>) -> bool {
        verified.later || (verified.early && chosen.is_some() && chosen == self.request)
    }

    /// 18: whether this end may write a message of this type now, by another call than one that chooses.
    fn check_stage(&self, kind: u32) -> Result<(), Refusal> {
        let Some(turn) = self.turn.filter(|_| !self.closed && !self.must_choose()) else {
            return refuse(18);
        };
        let second = kind == 6 && turn == Turn::Later && self.counts(self.written, self.chosen);
        refuse_if(second || !may_stand(turn, self.acceptor, &self.said.kinds, kind), 18)
    }

    fn check_marks(&self, marks: u16) -> Result<(), Refusal> {
        refuse_if(u32::from(marks) >> self.own.len() != 0, 19)
    }

    fn unmarked(&self, marks: u16) -> Vec<Id> {
        let is_marked = |id: &Id| self.own.iter().position(|own| own == id).is_some_and(|k| marks >> k & 1 == 1);
        self.common.iter().copied().filter(|id| !is_marked(id)).collect()
    }

    pub fn offer(&mut self, random: &[u8], extensions: &[Element], test: bool) -> Result<(), Refusal> {
        refuse_if(self.acceptor, 18)?;
        self.check_stage(0)?;
        check_elements(extensions)?;
        refuse_if(!test && extensions.iter().any(|e| (e.kind as i32) < 0), 26)?;
        let list = self.own.clone();
        self.append(nego(0, random, &list, extensions))?;
        self.said.list = list;
        Ok(())
    }

    pub fn reply(&mut self, marks: u16, random: &[u8], extensions: &[Element], test: bool) -> Result<Choice, Refusal> {
        refuse_if(!self.acceptor, 18)?;
        self.check_stage(1)?;
        self.check_marks(marks)?;
        check_elements(extensions)?;
        refuse_if(!test && extensions.iter().any(|e| (e.kind as i32) < 0), 26)?;
        let list = self.unmarked(marks);
        let Some(&scheme) = list.first() else {
            return refuse(17);
        };
        self.append(nego(1, random, &list, extensions))?;
        self.reply = list.clone();
        self.said.list = list;
        Ok(Choice { scheme, left: self.reply.len() })
    }

    pub fn metadata(&mut self, scheme: Id, octets: &[u8]) -> Result<(), Refusal> {
        let kind = if self.acceptor { 3 } else { 2 };
        self.check_stage(kind)?;
        refuse_if(octets.is_empty(), 19)?;
        refuse_if(!self.said.list.contains(&scheme) || self.said.described.contains(&scheme), 15)?;
        self.append(exchange(kind, &scheme, octets))?;
        self.said.described.push(scheme);
        Ok(())
    }

    /// Any message that names the rule's scheme: an exchange, a VERIFY or an ALERT.
    pub fn speak(&mut self, speech: &Speech) -> Result<(), Refusal> {
        let kind = self.kind_of(speech);
        self.check_stage(kind)?;
        check_elements(speech.elements())?;
        let scheme = match (self.turn, kind) {
            (Some(Turn::Later), _) => self.chosen,
            (_, 6) => self.said.exchange,
            (Some(Turn::First), _) => self.said.list.first().copied(),
            _ => self.request.filter(|id| self.said.list.first() == Some(id)),
        };
        let Some(scheme) = scheme else {
            return refuse(15);
        };
        self.say(kind, scheme, speech)
    }

    /// Chooses, and writes the first later message at once.
    pub fn choose(&mut self, marks: u16, speech: &Speech) -> Result<Choice, Refusal> {
        let kind = self.kind_of(speech);
        refuse_if(self.closed || !self.must_choose(), 18)?;
        self.check_marks(marks)?;
        check_elements(speech.elements())?;
        let left = self.unmarked(marks);
        let Some(&scheme) = left.first() else {
            return refuse(17);
        };
        refuse_if(kind == 6 && self.counts(self.written, Some(scheme)), 18)?;
        self.say(kind, scheme, speech)?;
        self.chosen = Some(scheme);
        Ok(Choice { scheme, left: left.len() })
    }

    fn kind_of(&self, speech: &Speech) -> u32 {
        match speech {
            Speech::Exchange(_) if self.acceptor => 4,
            Speech::Exchange(_) => 5,
            Speech::Verify(..) => 6,
            Speech::Alert(..) => 7,
        }
    }

    fn say(&mut self, kind: u32, scheme: Id, speech: &Speech) -> Result<(), Refusal> {
        self.append(match speech {
            Speech::Exchange(octets) => exchange(kind, &scheme, octets),
            Speech::Verify(of, octets) => verify(&scheme, *of, octets),
            Speech::Alert(code, alerts) => alert(&scheme, *code, alerts),
        })?;
        let later = self.turn == Some(Turn::Later);
        match kind {
            6 if later => self.written.later = true,
            6 => self.written.early = true,
            5 if !later => self.request = Some(scheme),
            _ => (),
        }
        if kind < 6 {
            self.said.exchange = Some(scheme);
        }
        Ok(())
    }

    /// Puts a message of this end's at the transcript's end, with its number and conversation.
    fn append(&mut self, mut message: Vec<u8>) -> Result<(), Refusal> {
        refuse_if(self.used() + message.len() > self.room, 16)?;
        let length = message.len() as u32;
        message[12..16].copy_from_slice(&self.messages.to_le_bytes());
        message[20..24].copy_from_slice(&length.to_le_bytes());
        message[24..40].copy_from_slice(&self.conversation.expect("an end that writes has a conversation"));
        self.said.kinds.push(u32::from(message[8]));
        self.transcript.extend(message);
        self.messages += 1;
        Ok(())
    }

    /// Reads a token of the peer's: the number of its messages. 12 closes this end.
    pub fn read(&mut self, token: &[u8]) -> Result<u32, Refusal> {
        let heard = match (self.turn, self.acceptor) {
            _ if self.closed => return refuse(18),
            (None, _) => Turn::First,
            (Some(_), _) if self.said.kinds.is_empty() => return refuse(18),
            (Some(Turn::First), _) => Turn::Reply,
            _ => Turn::Later,
        };
        refuse_if(token.len() > LONGEST, 1)?;
        let mut next = self.clone();
        next.said = Said::default();
        let mut place = 0;
        while place < token.len() || place == 0 {
            match next.hear(heard, &token[place..]) {
                Ok(length) => place += length,
                Err(number) => {
                    self.closed = number == 12;
                    return Err(Refusal { number, place });
                }
            }
        }
        refuse_if(self.used() + token.len() > self.room, 16)?;
        let messages = next.messages - self.messages;
        next.end_reading(heard, token);
        *self = next;
        Ok(messages)
    }

    /// Behind an accepted token it is this end's turn.
    fn end_reading(&mut self, heard: Turn, token: &[u8]) {
        self.transcript.extend(token);
        self.turn_start = self.transcript.len();
        self.turn = Some(if heard == Turn::First { Turn::Reply } else { Turn::Later });
        self.said = Said::default();
    }

    /// The message at the front of `rest`, by 2 to 15: its length.
    fn hear(&mut self, turn: Turn, rest: &[u8]) -> Result<usize, u32> {
        let message = self.judge(rest).map_err(|fault| fault.number)?;
        let kind = message.kind;
        let scheme: Id = message.scheme().try_into().expect("16 octets");
        let chosen = self.chosen.or(Some(scheme).filter(|id| self.acceptor && turn == Turn::Later && self.reply.contains(id)));
        let second = kind == 6 && turn == Turn::Later && self.counts(self.heard, chosen);
        if second || !may_stand(turn, !self.acceptor, &self.said.kinds, kind) {
            return Err(14);
        }
        if kind < 2 {
            self.hear_nego(message);
        } else if !self.scheme_fits(turn, kind, scheme, chosen) {
            return Err(15);
        }
        match (kind, turn) {
            (6, Turn::Later) => self.heard.later = true,
            (6, _) => self.heard.early = true,
            (2 | 3, _) => self.said.described.push(scheme),
            (5, Turn::First) => self.request = Some(scheme),
            _ => (),
        }
        if kind == 4 || kind == 5 {
            self.said.exchange = Some(scheme);
        }
        if turn == Turn::Later {
            self.chosen = chosen;
        }
        self.said.kinds.push(kind);
        self.messages += 1;
        Ok(message.octets.len())
    }

    /// Checks 2 to 13; an acceptor takes the conversation from its first message.
    fn judge<'a>(&mut self, rest: &'a [u8]) -> Result<Message<'a>, Fault> {
        let message = Message::cut(rest)?;
        let known = self.conversation.unwrap_or(message.conversation().try_into().expect("16 octets"));
        message.follows(u64::from(self.messages), &known)?;
        message.check()?;
        self.conversation = Some(known);
        Ok(message)
    }

    /// The schemes that both list: the acceptor keeps its own order, the initiator the reply's, each once.
    fn hear_nego(&mut self, message: Message) {
        self.said.list = message.schemes().map(|id| id.try_into().expect("16 octets")).collect();
        let list = &self.said.list;
        if self.acceptor {
            self.common = self.own.iter().copied().filter(|id| list.contains(id)).collect();
        } else {
            let mut common: Vec<Id> = Vec::new();
            for id in list.iter().filter(|id| self.own.contains(id)) {
                if !common.contains(id) {
                    common.push(*id);
                }
            }
            self.common = common;
        }
    }

    /// 15: the scheme that a message of the peer's may name.
    fn scheme_fits(&self, turn: Turn, kind: u32, scheme: Id, chosen: Option<Id>) -> bool {
        let first = self.said.list.first();
        match (turn, kind) {
            (Turn::Later, _) => chosen == Some(scheme),
            (_, 2 | 3) => self.said.list.contains(&scheme) && !self.said.described.contains(&scheme),
            (_, 6) => self.said.exchange == Some(scheme),
            (Turn::First, _) => first == Some(&scheme),
            _ => self.request == Some(scheme) && first == Some(&scheme),
        }
    }
}

/// 25: at most 8 extensions or alerts, with values of at most 4,096 octets.
fn check_elements(elements: &[Element]) -> Result<(), Refusal> {
    refuse_if(elements.len() > 8 || elements.iter().any(|e| e.value.len() > 4_096), 25)
}

// ---- messages as they are written; number, length and conversation are put in when they are appended ----

fn put(message: &mut [u8], at: usize, number: usize) {
    message[at..at + 4].copy_from_slice(&(number as u32).to_le_bytes());
}

fn headed(kind: u32) -> Vec<u8> {
    let mut message = vec![0; header_of(kind)];
    message[..8].copy_from_slice(SIGNATURE);
    put(&mut message, 8, kind as usize);
    put(&mut message, 16, header_of(kind));
    message
}

/// The array of elements behind what is written, their values behind it; an empty array or value has offset 0 and size 0.
fn put_elements(message: &mut Vec<u8>, vector: usize, elements: &[Element]) {
    if elements.is_empty() {
        return;
    }
    let start = message.len();
    put(message, vector, start);
    put(message, vector + 4, elements.len());
    let mut place = start + 12 * elements.len();
    for e in elements {
        let offset = if e.value.is_empty() { 0 } else { place };
        message.extend(e.kind.to_le_bytes());
        message.extend((offset as u32).to_le_bytes());
        message.extend((e.value.len() as u32).to_le_bytes());
        place += e.value.len();
    }
    elements.iter().for_each(|e| message.extend(&e.value));
}

fn put_octets(message: &mut Vec<u8>, vector: usize, octets: &[u8]) {
    let start = message.len();
    put(message, vector, start);
    put(message, vector + 4, octets.len());
    message.extend(octets);
}

fn nego(kind: u32, random: &[u8], list: &[Id], extensions: &[Element]) -> Vec<u8> {
    let mut message = headed(kind);
    message[40..72].copy_from_slice(random);
    put(&mut message, 80, 96);
    put(&mut message, 84, list.len());
    list.iter().for_each(|id| message.extend(id));
    put_elements(&mut message, 88, extensions);
    message
}

fn exchange(kind: u32, scheme: &Id, octets: &[u8]) -> Vec<u8> {
    let mut message = headed(kind);
    message[40..56].copy_from_slice(scheme);
    put_octets(&mut message, 56, octets);
    message
}

fn verify(scheme: &Id, of: u32, octets: &[u8]) -> Vec<u8> {
    let mut message = headed(6);
    message[40..56].copy_from_slice(scheme);
    put(&mut message, 56, 20);
    put(&mut message, 60, 1);
    put(&mut message, 64, of as usize);
    put_octets(&mut message, 68, octets);
    message
}

fn alert(scheme: &Id, code: u32, alerts: &[Element]) -> Vec<u8> {
    let mut message = headed(7);
    message[40..56].copy_from_slice(scheme);
    put(&mut message, 56, code as usize);
    put_elements(&mut message, 60, alerts);
    message
}
