//! Damaged tokens, envelopes and scripts, made from bundled ones. All that is drawn comes from one seed, so that a run can be repeated.

/// A generator of numbers (xorshift*).
pub struct Random(pub u64);

impl Random {
    pub fn next(&mut self) -> u64 {
        self.0 ^= self.0 >> 12;
        self.0 ^= self.0 << 25;
        self.0 ^= self.0 >> 27;
        self.0.wrapping_mul(0x2545_F491_4F6C_DD1D) >> 16
    }

    pub fn below(&mut self, n: usize) -> usize {
        (self.next() % n as u64) as usize
    }

    pub fn one_in(&mut self, n: usize) -> bool {
        self.below(n) == 0
    }

    pub fn pick<'a, T>(&mut self, of: &'a [T]) -> &'a T {
        &of[self.below(of.len())]
    }

    /// A place in a slice of so many, or behind its end.
    fn place(&mut self, length: usize) -> usize {
        self.below(length + 1)
    }
}

/// Bundled inputs: most draws take a short one, since a long one costs the time of a hundred.
pub struct Pool {
    short: Vec<Vec<u8>>,
    all: Vec<Vec<u8>>,
}

impl Pool {
    pub fn new(all: Vec<Vec<u8>>, short: usize) -> Pool {
        Pool { short: all.iter().filter(|x| x.len() <= short).cloned().collect(), all }
    }

    fn draw(&self, r: &mut Random) -> Vec<u8> {
        let from = if r.one_in(30) { &self.all } else { &self.short };
        r.pick(from).clone()
    }
}

/// Sets one, two or four octets at a place, as far as there are octets.
fn set(octets: &mut [u8], at: usize, value: u64, size: usize) {
    for (octet, new) in octets.iter_mut().skip(at).zip(value.to_le_bytes()).take(size) {
        *octet = new;
    }
}

/// Damage that asks for no form: bits and octets changed, stretches cut off, lost, repeated or inserted, and the rest of another input.
fn damage_octets(r: &mut Random, octets: &mut Vec<u8>, other: &[u8]) {
    let at = r.place(octets.len());
    let end = (at + 1 + r.below(24)).min(octets.len());
    match r.below(9) {
        0 | 1 if at < octets.len() => octets[at] ^= 1 << r.below(8),
        2 | 3 if at < octets.len() => octets[at] = *r.pick(&[0, 1, 0x7F, 0x80, 0xFF, r.0 as u8]),
        4 => octets.truncate(at),
        5 if at < end => drop(octets.drain(at..end)),
        6 if at < end => {
            let part = octets[at..end].to_vec();
            octets.splice(at..at, part);
        }
        7 => {
            let new: Vec<u8> = (0..1 + r.below(9)).map(|_| r.next() as u8).collect();
            octets.splice(at..at, new);
        }
        _ => {
            octets.truncate(at);
            octets.extend(&other[r.place(other.len())..]);
        }
    }
}

// ---- tokens ----

/// Where messages seem to start: at each signature.
fn starts(token: &[u8]) -> Vec<usize> {
    let mut found: Vec<usize> = token.windows(8).enumerate().filter(|(_, w)| w == b"NEGOEXTS").map(|(at, _)| at).collect();
    if found.is_empty() {
        found.push(0);
    }
    found
}

/// A value near the limits of lengths and offsets, of the message and of 32 bits.
fn limit(r: &mut Random, length: usize) -> u64 {
    let numbers = [0, 1, 7, 8, 12, 16, 20, 40, 64, 72, 80, 96, length, 65_535, 0x8000, 0x7FFF_FFFF, 0x8000_0000, 0xFFFF_FFF0, 0xFFFF_FFFF];
    let near = *r.pick(&numbers) as u64;
    match r.below(4) {
        0 => near.wrapping_sub(1) & 0xFFFF_FFFF,
        1 => near + 1 & 0xFFFF_FFFF,
        2 => r.place(length + 16) as u64,
        _ => near,
    }
}

/// A field of a header, or of an element behind it, set to a value near a limit.
fn damage_field(r: &mut Random, token: &mut [u8], start: usize, length: usize) {
    const FIELDS: [usize; 22] = [8, 12, 16, 20, 24, 36, 40, 56, 60, 64, 66, 68, 72, 76, 80, 84, 86, 88, 92, 96, 100, 104];
    let at = start + *r.pick(&FIELDS);
    let value = limit(r, length);
    set(token, at, value, *r.pick(&[1, 2, 2, 4, 4, 4]));
}

/// Elements: an extension or alert array somewhere behind the header, with a value for each.
fn place_elements(r: &mut Random, token: &mut [u8], start: usize, length: usize) {
    let kind = token.get(start + 8).copied().unwrap_or(0);
    let (vector, header) = if kind == 7 { (60, 72) } else { (88, 96) };
    let count = r.below(4);
    let array = header + r.below(length.saturating_sub(header + 12 * count) + 1);
    set(token, start + vector, array as u64, 4);
    set(token, start + vector + 4, count as u64, 2);
    for k in 0..count {
        let at = start + array + 12 * k;
        let (offset, size) = (header + r.below(length.saturating_sub(header) + 1), r.below(9));
        set(token, at, if r.one_in(9) { limit(r, length) } else { k as u64 }, 4);
        set(token, at + 4, if r.one_in(9) { limit(r, length) } else { offset as u64 }, 4);
        set(token, at + 8, if r.one_in(9) { limit(r, length) } else { size as u64 }, 4);
    }
}

/// Whole messages left out, repeated, exchanged or taken from another token.
fn move_messages(r: &mut Random, token: &mut Vec<u8>, other: &[u8]) {
    let cut = |token: &[u8]| -> Vec<Vec<u8>> {
        let mut places = starts(token);
        places.push(token.len());
        places.windows(2).map(|w| token[w[0]..w[1]].to_vec()).collect()
    };
    let mut messages = cut(token);
    let k = r.below(messages.len());
    match r.below(4) {
        0 => drop(messages.remove(k)),
        1 => messages.insert(k, messages[k].clone()),
        2 => messages.rotate_left(k),
        _ => {
            let others = cut(other);
            messages.insert(k, r.pick(&others).clone());
        }
    }
    *token = messages.concat();
}

/// Numbers and conversations that follow one another, so that what comes behind 8 is reached.
fn renumber(r: &mut Random, token: &mut [u8]) {
    let first = if r.one_in(8) { 0xFFFF_FFFF - r.below(3) as u64 } else { r.below(3) as u64 };
    let places = starts(token);
    let conversation = token.get(places[0] + 24..places[0] + 40).unwrap_or(&[]).to_vec();
    for (k, place) in places.into_iter().enumerate() {
        set(token, place + 12, first + k as u64, 4);
        if let Some(old) = token.get_mut(place + 24..place + 40) {
            old.copy_from_slice(&conversation);
        }
    }
}

/// A damaged token: up to four damages, most of them where a reader looks.
pub fn token(r: &mut Random, pool: &Pool) -> Vec<u8> {
    let mut token = pool.draw(r);
    for _ in 0..*r.pick(&[1, 1, 2, 2, 3, 4]) {
        let places = starts(&token);
        let k = r.below(places.len());
        let start = places[k];
        let length = places.get(k + 1).copied().unwrap_or(token.len()) - start.min(token.len());
        match r.below(12) {
            0..=3 => damage_field(r, &mut token, start, length),
            4 | 5 => place_elements(r, &mut token, start, length),
            6 | 7 => {
                let other = pool.draw(r);
                move_messages(r, &mut token, &other);
            }
            8 | 9 => renumber(r, &mut token),
            _ => {
                let other = pool.draw(r);
                damage_octets(r, &mut token, &other);
            }
        }
    }
    if r.one_in(400) {
        token.resize(65_534 + r.below(4), 0);
    }
    token
}

// ---- envelopes ----

/// An element of an envelope: its tag, and its contents or the elements in it.
#[derive(Clone)]
struct Element {
    tag: u8,
    form: Form,
    contents: Vec<u8>,
    inner: Vec<Element>,
}

/// How a length is written.
#[derive(Clone, Copy, PartialEq)]
enum Form {
    Shortest,
    Indefinite,
    /// The long form with so many octets of length.
    Long(usize),
    /// The shortest form of a number that is so much above the length.
    Off(isize),
}

/// The elements at the front of some octets; none where they are no row of elements.
fn parse(mut octets: &[u8]) -> Option<Vec<Element>> {
    let mut row = Vec::new();
    while let [tag, form, rest @ ..] = octets {
        let size = usize::from(form.saturating_sub(0x80));
        if *form == 0x80 || size > 3 || rest.len() < size {
            return None;
        }
        let length = if *form < 0x80 { usize::from(*form) } else { rest[..size].iter().fold(0, |n, x| n << 8 | usize::from(*x)) };
        let contents = rest.get(size..size + length)?;
        let inner = if tag & 0x20 != 0 { parse(contents).unwrap_or_default() } else { Vec::new() };
        row.push(Element { tag: *tag, form: Form::Shortest, contents: if inner.is_empty() { contents.to_vec() } else { Vec::new() }, inner });
        octets = &rest[size + length..];
    }
    Some(row).filter(|_| octets.is_empty())
}

fn encode(elements: &[Element], to: &mut Vec<u8>) {
    for e in elements {
        let mut contents = e.contents.clone();
        encode(&e.inner, &mut contents);
        to.push(e.tag);
        put_length(e.form, contents.len(), to);
        to.extend(contents);
    }
}

fn put_length(form: Form, length: usize, to: &mut Vec<u8>) {
    let told = if let Form::Off(by) = form { length.saturating_add_signed(by) } else { length };
    let needed = (1..=8).find(|n| told >> (8 * n) == 0 || *n == 8).unwrap_or(8);
    let size = match form {
        Form::Indefinite => return to.push(0x80),
        Form::Long(size) => size.max(needed),
        _ if told < 0x80 => return to.push(told as u8),
        _ => needed,
    };
    to.push(0x80 | size as u8);
    to.extend((0..size).rev().map(|k| if k < 8 { (told >> (8 * k)) as u8 } else { 0 }));
}

/// The row that holds some element, drawn by going down from the outermost.
fn some_row<'a>(r: &mut Random, row: &'a mut Vec<Element>) -> &'a mut Vec<Element> {
    let deeper: Vec<usize> = (0..row.len()).filter(|&k| !row[k].inner.is_empty()).collect();
    if deeper.is_empty() || r.one_in(6) {
        return row;
    }
    let k = *r.pick(&deeper);
    some_row(r, &mut row[k].inner)
}

/// Damage to one element, which leaves those around it with lengths that fit.
fn damage_element(r: &mut Random, whole: &mut Vec<Element>, other: &[Element]) {
    const TAGS: [u8; 14] = [0x60, 0x30, 0xA0, 0xA1, 0xA2, 0xA3, 0xA4, 0x02, 0x03, 0x04, 0x06, 0x0A, 0x05, 0x31];
    let row = some_row(r, whole);
    if row.is_empty() {
        return;
    }
    let k = r.below(row.len());
    match r.below(10) {
        0 => row[k].tag = *r.pick(&TAGS),
        1 | 2 => row[k].form = *r.pick(&[Form::Indefinite, Form::Long(1), Form::Long(2), Form::Long(5), Form::Long(9), Form::Long(127), Form::Off(1), Form::Off(-1), Form::Off(1 << 40)]),
        3 => drop(row.remove(k)),
        4 => row.insert(k, row[k].clone()),
        5 => (0..17 - r.below(3)).for_each(|_| row.insert(k, row[k].clone())),
        6 => row.rotate_left(k),
        7 => row[k].contents = (0..r.below(3)).map(|_| r.below(6) as u8).collect(),
        8 => {
            let tag = *r.pick(&TAGS);
            let inner = if r.one_in(2) { row[k].inner.clone() } else { Vec::new() };
            row.insert(k + 1, Element { tag, form: Form::Shortest, contents: vec![0; r.below(3)], inner });
        }
        _ => {
            let mut others = other.to_vec();
            let part = some_row(r, &mut others).clone();
            row.splice(k..=k, part);
        }
    }
}

/// Another value in a field, of a length at which the lengths around it change their form, or one mechanism more: what was accepted stays so, in most.
fn change_field(r: &mut Random, whole: &mut Vec<Element>) {
    let row = some_row(r, whole);
    if row.is_empty() {
        return;
    }
    let k = r.below(row.len());
    let length = *r.pick(&[0, 1, 2, 10, 110, 126, 127, 128, 129, 240, 255, 256]);
    match row[k].tag {
        0x06 if r.one_in(2) => row.insert(k, row[k].clone()),
        0x0A => row[k].contents = vec![r.below(4) as u8],
        0x03 | 0x04 | 0x06 => row[k].contents = (0..length).map(|_| r.next() as u8).collect(),
        0xA1..=0xA3 => drop(row.remove(k)),
        _ => (),
    }
}

/// A damaged envelope: its elements changed, with lengths around them that fit, then in some its octets.
pub fn envelope(r: &mut Random, pool: &Pool) -> Vec<u8> {
    let mut octets = pool.draw(r);
    if let Some(mut whole) = parse(&octets) {
        let other = parse(&pool.draw(r)).unwrap_or_default();
        for _ in 0..r.below(3) {
            change_field(r, &mut whole);
        }
        for _ in 0..*r.pick(&[0, 0, 1, 1, 2]) {
            damage_element(r, &mut whole, &other);
        }
        octets.clear();
        encode(&whole, &mut octets);
    }
    if r.one_in(8) {
        let other = pool.draw(r);
        damage_octets(r, &mut octets, &other);
    }
    if r.one_in(300) {
        octets.resize(65_534 + r.below(4), 0);
    }
    octets
}

// ---- scripts ----

const WORDS: [&str; 24] = [
    "open",
    "i",
    "a",
    "offer",
    "reply",
    "metadata",
    "exchange",
    "verify",
    "alert",
    "read",
    "choose",
    "test",
    "-",
    "0000",
    "0001",
    "0003",
    "FFFF",
    "00000001",
    "80000001",
    "00000005:AB",
    "80000001:-",
    "65535",
    "65537",
    "300",
];

/// A field: another word, some digits changed, or a stretch of a token's digits.
fn damage_word(r: &mut Random, word: &mut String, other: &str) {
    match r.below(8) {
        0 => *word = r.pick(&WORDS).to_string(),
        1 => *word = other.to_string(),
        2 => drop(word.pop()),
        3 => word.push(*r.pick(&['0', 'f', 'G', ' ', ':', '-', '\r', 'é'])),
        4 => *word = word.to_lowercase(),
        5 => *word = word.repeat(1 + r.below(2)),
        _ => {
            let digits: Vec<usize> = word.char_indices().filter(|(_, c)| c.is_ascii_hexdigit()).map(|(at, _)| at).collect();
            for _ in 0..1 + r.below(3) {
                if let Some(&at) = digits.get(r.below(digits.len().max(1))) {
                    word.replace_range(at..at + 1, *r.pick(&["0", "1", "7", "8", "F", "a"]));
                }
            }
        }
    }
}

/// A line: one of its fields, or the fields' order and number.
fn damage_line(r: &mut Random, line: &mut String, other: &str) {
    let others: Vec<&str> = other.split(' ').collect();
    let mut words: Vec<String> = line.split(' ').map(str::to_string).collect();
    let k = r.below(words.len());
    match r.below(8) {
        0 => drop(words.remove(k)),
        1 => (0..*r.pick(&[1, 1, 7, 8])).for_each(|_| words.insert(k, words[k].clone())),
        2 => words.insert(k, r.pick(&others).to_string()),
        3 => words[0] = r.pick(&["i", "a"]).to_string(),
        4 => {
            let (first, second) = (r.below(words.len()), k);
            words.swap(first, second);
        }
        _ => {
            let taken = *r.pick(&others);
            damage_word(r, &mut words[k], taken);
        }
    }
    *line = words.join(" ");
}

/// A token that a line reads, damaged as tokens are.
fn damage_read(r: &mut Random, line: &mut String, tokens: &Pool) {
    let damaged = token(r, tokens);
    if damaged.len() < 4_000 {
        let digits: String = damaged.iter().map(|x| format!("{x:02X}")).collect();
        *line = format!("{} read {digits}", r.pick(&["i", "a"]));
    }
}

/// A reading of the other end's turn becomes one of the octets that were written, some of them changed.
fn damage_turn(r: &mut Random, line: &mut String, printed: &[String]) {
    let Some(digits) = printed.iter().rev().find_map(|p| p.strip_prefix("wrote ")?.split(' ').nth(1)) else {
        return;
    };
    let mut octets: Vec<u8> = (0..digits.len() / 2).map(|k| u8::from_str_radix(&digits[2 * k..2 * k + 2], 16).unwrap_or(0)).collect();
    let length = octets.len();
    match r.below(3) {
        0 => place_elements(r, &mut octets, 0, length),
        1 => damage_field(r, &mut octets, 0, length),
        _ => damage_octets(r, &mut octets, &[]),
    }
    if !octets.is_empty() {
        let end = line.split(' ').next().unwrap_or("a").to_string();
        *line = format!("{end} read {}", octets.iter().map(|x| format!("{x:02X}")).collect::<String>());
    }
}

/// A call of the grammar, with an id that the script's ends may have.
fn made_call(r: &mut Random, lines: &[String]) -> String {
    let ids: Vec<&str> = lines.iter().filter(|l| l.starts_with("open")).flat_map(|l| l.split(' ')).filter(|w| w.len() == 36).collect();
    let id = if ids.is_empty() { "00112233-4455-6677-8899-AABBCCDDEEFF" } else { *r.pick(&ids) };
    let marks = *r.pick(&["0000", "0000", "0001", "0002", "0003", "0004", "0006", "8000"]);
    let value = *r.pick(&["-", "AB", "0011223344556677"]);
    let speech = match r.below(3) {
        0 => format!("exchange {value}"),
        1 => format!("verify FFFFFF76 {value}"),
        _ => format!("alert 00000005{}", [" 00000001:0800000001000000", " 80000001:-"][r.below(2)].repeat(r.below(10))),
    };
    let random = "5A".repeat(32);
    let extension = *r.pick(&["", "", " 00000007:-", " 00000007:AB 00000009:CDEF", " test 80000007:AB", " 80000007:-"]);
    let end = *r.pick(&["i", "a"]);
    match r.below(8) {
        0 => format!("{end} offer {random}{extension}"),
        1 => format!("{end} reply {marks} {random}{extension}"),
        2 => format!("{end} metadata {id} {value}"),
        3 => format!("{end} read"),
        4 => format!("{end} choose {marks} {speech}"),
        5 => format!("open {end} {}{} {id}", r.pick(&["65535", "400", "96"]), if end == "i" { " C0FFEE00-0001-0002-0003-000405060708" } else { "" }),
        _ => format!("{end} {speech}"),
    }
}

/// Some lines many times: a conversation of a thousand messages, up to the end of the room.
fn repeat_lines(r: &mut Random, lines: &mut Vec<String>) {
    let k = r.below(lines.len());
    let own = lines[k..(k + 1 + r.below(4)).min(lines.len())].to_vec();
    let turns = ["i exchange -", "a read", "a exchange -", "i read"].map(str::to_string).to_vec();
    let (at, block) = if r.one_in(2) { (k, own) } else { (lines.len(), turns) };
    let times = r.below(300);
    lines.splice(at..at, (0..times).flat_map(|_| block.clone()));
}

/// A damaged script: lines left out, repeated, exchanged, taken from another script, or changed. `play` says what a script is answered with: what an end wrote is a token to damage.
pub fn script(r: &mut Random, pool: &Pool, tokens: &Pool, play: impl Fn(&[u8]) -> String) -> Vec<u8> {
    let lines = |octets: Vec<u8>| -> Vec<String> { String::from_utf8_lossy(&octets).lines().map(str::to_string).filter(|l| !l.is_empty() && !l.starts_with('#')).collect() };
    let mut own = lines(pool.draw(r));
    let other = lines(pool.draw(r));
    own.push(r.pick(&["", "# a comment", "a read", "i read"]).to_string());
    for _ in 0..1 + r.below(5) {
        let k = r.below(own.len());
        let from = if other.is_empty() { String::new() } else { r.pick(&other).clone() };
        match r.below(18) {
            0 => drop(own.remove(k)),
            1 | 2 => own.insert(k, own[k].clone()),
            3 | 4 => own.insert(k, from),
            5 => {
                let j = r.below(own.len());
                own.swap(j, k);
            }
            6 => own.splice(k.., other.iter().skip(k).cloned()).for_each(drop),
            7 => damage_read(r, &mut own[k], tokens),
            8 | 9 => own.insert(k, made_call(r, &own)),
            10 | 11 if own[k].ends_with(" read") => {
                let printed: Vec<String> = play(own[..k].join("\n").as_bytes()).lines().map(str::to_string).collect();
                damage_turn(r, &mut own[k], &printed);
            }
            _ => damage_line(r, &mut own[k], &from),
        }
        if own.is_empty() {
            own.push(String::new());
        }
    }
    if r.one_in(100) {
        repeat_lines(r, &mut own);
    }
    finish(r, own.join("\n").into_bytes())
}

/// In some scripts octets are damaged too, or it ends in a line feed, or is too long.
fn finish(r: &mut Random, mut octets: Vec<u8>) -> Vec<u8> {
    if r.one_in(6) {
        let other = octets.clone();
        damage_octets(r, &mut octets, &other);
    }
    if r.one_in(2) {
        octets.push(b'\n');
    }
    if r.one_in(2_000) {
        octets.resize(262_142 + r.below(3), b'\n');
    }
    octets
}
