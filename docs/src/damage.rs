//! The proved library beside the plain readers in this folder, on damaged tokens, envelopes and scripts: every answer has to be the same, and no lent octet may change. `tools/damage`
//! builds and runs it.
//!
//!     damage tokens|envelopes|scripts COUNT SEED FOLDER FILE .. [-- TOKEN ..]
//!
//! COUNT inputs are made from the files, after these themselves; scripts also read damaged TOKENs. Inputs that are answered differently are put into FOLDER, and make the status 1.

mod conversation;
mod message;
mod mutation;
mod ours;
mod script;
mod shown;
mod spnego;

use mutation::{Pool, Random};
use ours::{Lent, Player};
use shown::Token;
use std::collections::{BTreeMap, HashSet};
use std::hash::{DefaultHasher, Hash, Hasher};
use std::time::Instant;

/// What differs, in words.
type Verdict = Result<(), String>;

fn same<T: PartialEq + std::fmt::Debug>(of: &str, ours: T, plain: T) -> Verdict {
    if ours == plain {
        return Ok(());
    }
    let shown = |x: T| format!("{x:?}").chars().take(2_000).collect::<String>();
    Err(format!("{of}: ours {}, plain {}", shown(ours), shown(plain)))
}

/// Lent octets beside a copy made before the calls. A library could write to them all the same, so the compiler is not to take them for unchanged.
fn unchanged(octets: &[u8], copy: &[u8]) -> Verdict {
    same("the lent octets", std::hint::black_box(octets), copy)
}

// ---- tokens ----

/// The number of a refusal, 0 for none.
fn number_of(token: &Token) -> u32 {
    token.fault.map_or(0, |(_, fault)| fault.number)
}

/// The pieces of a list from one on, up to another, as many whole ones as fit.
fn fitting(pieces: &[&[u8]], first: usize, end: usize, room: usize) -> Vec<u8> {
    let mut text = Vec::new();
    for piece in pieces.iter().take(end).skip(first) {
        if text.len() + piece.len() > room {
            break;
        }
        text.extend_from_slice(piece);
    }
    text
}

/// A window as the C functions answer it: 19 goes before an empty range, and that before 16.
fn window(refused: u32, pieces: &[&[u8]], first: usize, end: usize, room: usize) -> Lent {
    let text = fitting(pieces, first, end, room);
    match refused {
        0 if first >= pieces.len() => Lent::refused(19, room),
        0 if text.is_empty() && first < end => Lent::refused(16, room),
        0 => Lent::answered(&text, room),
        number => Lent::refused(number, room),
    }
}

/// All of some octets, or nothing where they don't fit.
fn whole(refused: u32, octets: &[u8], room: usize) -> Lent {
    match refused {
        0 if octets.len() > room => Lent::refused(16, room),
        0 => Lent::answered(octets, room),
        number => Lent::refused(number, room),
    }
}

/// The verdict, by both plain readers, and the listing, whole and in a window.
fn compare_listing(r: &mut Random, octets: &[u8], token: &Token) -> Verdict {
    let refused = number_of(token);
    let place = token.fault.map_or(0, |(place, _)| place);
    let count = |n: usize| if refused == 0 { n as i64 } else { -i64::from(refused) };
    same("messages", ours::messages(octets), count(token.messages.len()))?;
    same("place", ours::place(octets), place as i64)?;
    let other = plain::read_token(octets).map_or_else(|e| (-i64::from(e.number), e.place as i64), |n| (i64::from(n), 0));
    same("messages and place by plain.rs", (ours::messages(octets), ours::place(octets)), other)?;
    let lines = token.lines();
    let lines: Vec<&[u8]> = lines.iter().map(|line| line.as_bytes()).collect();
    same("lines", ours::lines(octets), count(lines.len()))?;
    let room = lines.concat().len() + r.below(9);
    same("listing", ours::window(octets, 0, usize::MAX, room), window(refused, &lines, 0, usize::MAX, room))?;
    let (first, end, room) = (r.below(lines.len() + 2), r.below(lines.len() + 3), r.below(300));
    same("window", ours::window(octets, first, end, room), window(refused, &lines, first, end, room))
}

/// Table, entries, fault and coverage, with room and in some cases without.
fn compare_views(r: &mut Random, octets: &[u8], token: &Token) -> Verdict {
    let refused = number_of(token);
    let accepted = |x: Vec<u8>| if refused == 0 { x } else { Vec::new() };
    let room = if r.one_in(4) { r.below(octets.len() + 1) } else { octets.len() };
    same("table", ours::table(octets, room), whole(refused, &accepted(token.table()), room))?;
    same("coverage", ours::coverage(octets, room), whole(refused, &accepted(token.coverage()), room))?;
    let all = accepted(token.entries());
    let entries: Vec<&[u8]> = all.chunks(24).collect();
    same("entry count", ours::entry_count(octets), if refused == 0 { entries.len() as i64 } else { -i64::from(refused) })?;
    let room = all.len() + r.below(24);
    same("entries", ours::entries(octets, 0, room), window(refused, &entries, 0, usize::MAX, room))?;
    let (first, room) = (r.below(entries.len() + 2), r.below(200));
    same("some entries", ours::entries(octets, first, room), window(refused, &entries, first, usize::MAX, room))?;
    let room = if r.one_in(4) { r.below(24) } else { 24 + r.below(9) };
    same("fault", ours::fault(octets, room), whole(0, &token.fault_entry(), room))
}

/// The numbers of one message, and of one that may not be there.
fn compare_numbers(r: &mut Random, octets: &[u8], token: &Token) -> Verdict {
    let refused = number_of(token);
    let (k, field, v) = (r.below(token.messages.len() + 1), r.below(6), r.below(4));
    let table = token.messages.get(k).filter(|_| refused == 0).map(|&(place, m)| {
        let vectors: Vec<_> = m.header_vectors().into_iter().chain(m.values()).collect();
        let places: Vec<_> = vectors.iter().map(|v| if v.size == 0 { place } else { place + v.offset as usize }).collect();
        ([place, m.kind as usize, m.sequence() as usize, message::header_of(m.kind), m.octets.len()], vectors, places, m.conversation())
    });
    let missing = -i64::from(if refused == 0 { 19 } else { refused });
    let number = |n: Option<usize>| n.map_or(missing, |n| n as i64);
    same("field", ours::field(octets, k, field), number(table.as_ref().and_then(|t| t.0.get(field).copied())))?;
    same("vectors", ours::vectors(octets, k), number(table.as_ref().map(|t| t.1.len())))?;
    same("vector place", ours::vector_place(octets, k, v), number(table.as_ref().and_then(|t| t.2.get(v).copied())))?;
    same("vector length", ours::vector_length(octets, k, v), number(table.as_ref().and_then(|t| t.1.get(v).map(|v| v.size as usize))))?;
    let room = r.below(20);
    let conversation = table.map_or(Lent::refused(missing.unsigned_abs() as u32, room), |t| whole(0, t.3, room));
    same("conversation", ours::conversation(octets, k, room), conversation)
}

/// What is left of it as a damaged capture, and what blanking leaves.
fn compare_rest(r: &mut Random, octets: &[u8], token: &Token) -> Verdict {
    let lines = shown::recovered(octets);
    let lines: Vec<&[u8]> = lines.iter().map(|line| line.as_bytes()).collect();
    let room = lines.concat().len() + r.below(9);
    same("recovered", ours::recovered(octets, 0, usize::MAX, room), Lent::answered(&lines.concat(), room))?;
    let (first, end, room) = (r.below(lines.len() + 2), r.below(lines.len() + 3), r.below(300));
    same("some recovered", ours::recovered(octets, first, end, room), Lent::answered(&fitting(&lines, first, end, room), room))?;
    let blank: Vec<u8> = if token.fault.is_none() { octets.iter().zip(token.coverage()).map(|(x, c)| x * c).collect() } else { octets.to_vec() };
    let value = token.fault.map_or(token.messages.len(), |(place, _)| place);
    same("blanked", ours::blanked(octets), (number_of(token), value as u64, blank))
}

fn compare_token(r: &mut Random, octets: &[u8], counts: &mut Counts) -> Verdict {
    let lent = octets.to_vec();
    let token = Token::read(&lent);
    counts.answer(if token.fault.is_none() { "accepted".to_string() } else { format!("{:>2}", number_of(&token)) });
    compare_listing(r, octets, &token)?;
    compare_views(r, octets, &token)?;
    compare_numbers(r, octets, &token)?;
    compare_rest(r, octets, &token)?;
    unchanged(octets, &lent)
}

// ---- envelopes ----

fn compare_envelope(r: &mut Random, octets: &[u8], counts: &mut Counts) -> Verdict {
    let lent = octets.to_vec();
    let envelope = spnego::read(&lent);
    counts.answer(envelope.as_ref().map_or_else(|n| format!("{n:>2}"), |e| if e.init { "accepted, Init" } else { "accepted, Resp" }.to_string()));
    let text = spnego::text(&lent);
    let room = text.len() + r.below(9);
    same("text", ours::envelope_text(octets, room), Lent::answered(text.as_bytes(), room))?;
    let found = envelope.map_err(|n| -i64::from(n)).and_then(|e| e.token.ok_or(-19));
    same("token's place", ours::envelope_place(octets), found.map_or_else(|n| n, |(place, _)| place as i64))?;
    same("token's length", ours::envelope_length(octets), found.map_or_else(|n| n, |(_, length)| length as i64))?;
    if let Ok((place, length)) = found {
        let token = &octets[place..place + length];
        if spnego::is_negoex(token) {
            compare_listing(r, token, &Token::read(token))?;
        }
    }
    unchanged(octets, &lent)
}

// ---- scripts ----

fn compare_script(player: &mut Player, octets: &[u8], counts: &mut Counts) -> Verdict {
    let plain = script::play(octets);
    for line in plain.lines().filter(|line| !line.starts_with("used")) {
        let mut words = line.split(' ');
        counts.answer(match (words.next(), words.next()) {
            (Some("refused"), Some(number)) => format!("{number:>2}"),
            (Some("bad"), _) => "bad line".to_string(),
            (first, _) => first.unwrap_or("").to_string(),
        });
    }
    let (printed, buffer) = player.play(octets);
    for (k, (ours, plain)) in printed.lines().zip(plain.lines()).enumerate() {
        same(&format!("line {k}"), ours, plain)?;
    }
    same("number of lines", printed.lines().count(), plain.lines().count())?;
    same("what is printed", &printed, &plain)?;
    same("the lent buffer", buffer, player.expected(octets))
}

// ---- runs ----

/// How often each answer was given.
#[derive(Default)]
struct Counts(BTreeMap<String, usize>);

impl Counts {
    fn answer(&mut self, name: String) {
        *self.0.entry(name).or_default() += 1;
    }
}

/// A number with a comma between thousands.
fn grouped(n: usize) -> String {
    let digits = n.to_string();
    let mut text = String::new();
    for (k, digit) in digits.chars().enumerate() {
        if k > 0 && (digits.len() - k) % 3 == 0 {
            text.push(',');
        }
        text.push(digit);
    }
    text
}

struct Run<'a> {
    kind: &'a str,
    folder: &'a str,
    bundled: usize,
    made: usize,
    octets: usize,
    seen: HashSet<u64>,
    counts: Counts,
    differences: usize,
}

impl Run<'_> {
    /// Compares an input, unless it was seen before.
    fn see(&mut self, input: &[u8], compare: impl FnOnce(&[u8], &mut Counts) -> Verdict) {
        let mut hasher = DefaultHasher::new();
        input.hash(&mut hasher);
        if !self.seen.insert(hasher.finish()) {
            return;
        }
        self.made += 1;
        self.octets += input.len();
        if let Err(what) = compare(input, &mut self.counts) {
            self.differences += 1;
            let name = format!("{}/{}-{}", self.folder, self.kind, self.made);
            std::fs::write(&name, input).unwrap_or_else(|e| panic!("{name}: {e}"));
            eprintln!("damage: {name}: {what}");
        }
    }

    /// The figures, as a paragraph and a table.
    fn report(&self, start: Instant) -> String {
        let answers: usize = self.counts.0.values().sum();
        let lines = if self.kind == "scripts" { format!(" to {} lines", grouped(answers)) } else { String::new() };
        let mut text = format!(
            "{} {}, all different, made from {} bundled ones, {} octets: {} differences, in {:.0} seconds. The answers{lines}:\n\n| answer | number |\n|---|---|\n",
            grouped(self.made),
            self.kind,
            self.bundled,
            grouped(self.octets),
            self.differences,
            start.elapsed().as_secs_f64()
        );
        self.counts.0.iter().for_each(|(name, n)| text += &format!("| {} | {} |\n", name.trim(), grouped(*n)));
        text
    }
}

fn read_all(names: &[String]) -> Vec<Vec<u8>> {
    names.iter().map(|name| std::fs::read(name).unwrap_or_else(|e| panic!("{name}: {e}"))).collect()
}

/// Makes and compares inputs until so many different ones are seen; 20 differences are enough.
fn compare_all(run: &mut Run, r: &mut Random, inputs: Vec<Vec<u8>>, tokens: &Pool, count: usize) {
    let mut player = if run.kind == "scripts" { Some(Player::new()) } else { None };
    let mut compare = |run: &mut Run, r: &mut Random, input: Vec<u8>| match &mut player {
        Some(player) => run.see(&input, |input, counts| compare_script(player, input, counts)),
        None if run.kind == "tokens" => run.see(&input, |input, counts| compare_token(r, input, counts)),
        None => run.see(&input, |input, counts| compare_envelope(r, input, counts)),
    };
    let pool = Pool::new(inputs.clone(), if run.kind == "scripts" { 8_000 } else { 1_500 });
    inputs.into_iter().for_each(|input| compare(run, r, input));
    run.bundled = run.made;
    let enough = run.made + count;
    while run.made < enough && run.differences < 20 {
        let input = match run.kind {
            "tokens" => mutation::token(r, &pool),
            "envelopes" => mutation::envelope(r, &pool),
            _ => mutation::script(r, &pool, tokens, script::play),
        };
        compare(run, r, input);
    }
}

fn main() {
    let args: Vec<String> = std::env::args().skip(1).collect();
    let [kind, count, seed, folder, names @ ..] = &args[..] else {
        panic!("damage tokens|envelopes|scripts COUNT SEED FOLDER FILE .. [-- TOKEN ..]");
    };
    let split = names.iter().position(|name| name == "--").unwrap_or(names.len());
    let inputs = read_all(&names[..split]);
    let tokens = Pool::new(read_all(names.get(split + 1..).unwrap_or(&[])), 1_500);
    let (count, seed): (usize, u64) = (count.parse().expect("a number"), seed.parse().expect("a number"));
    let mut r = Random(seed.wrapping_mul(0x9E37_79B9_7F4A_7C15) | 1);
    let mut run = Run { kind, folder, bundled: 0, made: 0, octets: 0, seen: HashSet::new(), counts: Counts::default(), differences: 0 };
    let start = Instant::now();
    compare_all(&mut run, &mut r, inputs, &tokens, count);
    print!("{}", run.report(start));
    std::process::exit(i32::from(run.differences > 0));
}
