//! The SPNEGO envelope around a token in plain Rust: NegTokenInit in its GSS-API wrapper, and NegTokenResp (RFC 4178), in DER. Refusals 1 and 20 to 23 and the lines are README.md's.

use crate::message::{LONGEST, SIGNATURE};

const SPNEGO: [u8; 6] = [0x2B, 0x06, 0x01, 0x05, 0x05, 0x02];
const NEGOEX: [u8; 10] = [0x2B, 0x06, 0x01, 0x04, 0x01, 0x82, 0x37, 0x02, 0x02, 0x1E];
const MOST_MECHANISMS: usize = 16;

/// What an envelope holds; `token` is its place in the envelope and its length.
#[derive(Default)]
pub struct Envelope<'a> {
    pub init: bool,
    pub mechanisms: Vec<&'a [u8]>,
    pub flags: Option<&'a [u8]>,
    pub state: Option<u8>,
    pub token: Option<(usize, usize)>,
    pub checksum: Option<&'a [u8]>,
}

/// What is left of the contents of an element, or of the buffer: elements are taken from its front.
struct Holder<'a> {
    left: &'a [u8],
}

impl<'a> Holder<'a> {
    /// The contents of the next element, which has to have this tag, and contents that are as they should be. All of 20 goes before 21.
    fn element(&mut self, tag: u8, good: impl Fn(&[u8]) -> bool) -> Result<&'a [u8], u32> {
        let [first, form, rest @ ..] = self.left else {
            return Err(20);
        };
        if *first != tag {
            return Err(20);
        }
        if *form == 0x80 {
            return Err(21);
        }
        let size = if *form < 0x80 { 0 } else { usize::from(form & 0x7F) };
        if rest.len() < size {
            return Err(20);
        }
        let (digits, rest) = rest.split_at(size);
        // A number above the longest envelope stays above it, however many octets follow.
        let length = if *form < 0x80 { usize::from(*form) } else { digits.iter().fold(0, |n: usize, x| n.saturating_mul(256).saturating_add(usize::from(*x))) };
        if rest.len() < length || !good(&rest[..length]) {
            return Err(20);
        }
        if *form > 0x80 && (length < 128 || digits[0] == 0) {
            return Err(21);
        }
        self.left = &rest[length..];
        Ok(&rest[..length])
    }

    fn holder(&mut self, tag: u8) -> Result<Holder<'a>, u32> {
        self.element(tag, |_| true).map(|left| Holder { left })
    }

    /// Octets left over are 22.
    fn end(&self) -> Result<(), u32> {
        if self.left.is_empty() {
            Ok(())
        } else {
            Err(22)
        }
    }
}

/// One context tag of the token's sequence, with the one element in it.
fn wrapped<'a>(sequence: &mut Holder<'a>, context: u8, tag: u8, good: impl Fn(&[u8]) -> bool) -> Result<&'a [u8], u32> {
    let mut holder = sequence.holder(context)?;
    let contents = holder.element(tag, good)?;
    holder.end()?;
    Ok(contents)
}

/// An Init's list of mechanisms: one at least, sixteen at most.
fn mechanisms<'a>(sequence: &mut Holder<'a>) -> Result<Vec<&'a [u8]>, u32> {
    let mut holder = sequence.holder(0xA0)?;
    let mut list = holder.holder(0x30)?;
    let mut mechanisms = Vec::new();
    while mechanisms.is_empty() || !list.left.is_empty() {
        let mechanism = list.element(0x06, |_| true)?;
        if mechanisms.len() == MOST_MECHANISMS {
            return Err(23);
        }
        mechanisms.push(mechanism);
    }
    holder.end()?;
    Ok(mechanisms)
}

/// The fields of the token's sequence, tags rising.
fn fields<'a>(envelope: &mut Envelope<'a>, sequence: &mut Holder<'a>, buffer: &'a [u8]) -> Result<(), u32> {
    let mut last = None;
    if envelope.init {
        envelope.mechanisms = mechanisms(sequence)?;
        last = Some(0xA0);
    }
    while let Some(&tag) = sequence.left.first() {
        match last {
            Some(last) if tag <= last || !(0xA1..=0xA3).contains(&tag) => return Err(22),
            None if !(0xA0..=0xA3).contains(&tag) => return Err(20),
            _ => last = Some(tag),
        }
        match (tag, envelope.init) {
            (0xA0, _) => envelope.state = Some(wrapped(sequence, tag, 0x0A, |c| c.len() == 1 && c[0] <= 3)?[0]),
            (0xA1, true) => envelope.flags = Some(wrapped(sequence, tag, 0x03, |_| true)?),
            (0xA1, false) => envelope.mechanisms = vec![wrapped(sequence, tag, 0x06, |_| true)?],
            (0xA2, _) => {
                let token = wrapped(sequence, tag, 0x04, |_| true)?;
                envelope.token = Some((token.as_ptr() as usize - buffer.as_ptr() as usize, token.len()));
            }
            _ => envelope.checksum = Some(wrapped(sequence, tag, 0x04, |_| true)?),
        }
    }
    Ok(())
}

/// Reads an envelope, or says the number that refuses it. The first octet says which of the two it is.
pub fn read(buffer: &[u8]) -> Result<Envelope<'_>, u32> {
    if buffer.len() > LONGEST {
        return Err(1);
    }
    let mut whole = Holder { left: buffer };
    let mut envelope = Envelope { init: buffer.first() == Some(&0x60), ..Envelope::default() };
    if envelope.init {
        let mut wrapper = whole.holder(0x60)?;
        wrapper.element(0x06, |c| c == SPNEGO)?;
        let mut choice = wrapper.holder(0xA0)?;
        fields(&mut envelope, &mut choice.holder(0x30)?, buffer)?;
        choice.end()?;
        wrapper.end()?;
    } else {
        let mut choice = whole.holder(0xA1)?;
        fields(&mut envelope, &mut choice.holder(0x30)?, buffer)?;
        choice.end()?;
    }
    whole.end()?;
    Ok(envelope)
}

fn octets_text(octets: &[u8]) -> String {
    if octets.is_empty() {
        return "-".to_string();
    }
    octets.iter().map(|x| format!("{x:02X}")).collect()
}

/// The lines of an envelope, those of the token's listing not among them.
pub fn text(buffer: &[u8]) -> String {
    let envelope = match read(buffer) {
        Ok(envelope) => envelope,
        Err(number) => return format!("refused {number} at=0\n"),
    };
    let mut text = format!("envelope {} length={}\n", if envelope.init { "init" } else { "resp" }, buffer.len());
    if let Some(state) = envelope.state {
        text += &format!("state {state}\n");
    }
    for (k, mechanism) in envelope.mechanisms.iter().enumerate() {
        let known = if **mechanism == NEGOEX { " negoex" } else { "" };
        text += &format!("mechanism {k} {}{known}\n", octets_text(mechanism));
    }
    if let Some(flags) = envelope.flags {
        text += &format!("flags {}\n", octets_text(flags));
    }
    if let Some((place, length)) = envelope.token {
        text += &format!("token at={place} length={length}\n");
    }
    if let Some(checksum) = envelope.checksum {
        text += &format!("checksum {}\n", octets_text(checksum));
    }
    text
}

/// Whether a listing follows the lines: the token begins with NEGOEX's signature.
pub fn is_negoex(token: &[u8]) -> bool {
    token.starts_with(SIGNATURE)
}
