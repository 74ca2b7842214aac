//! The proved reader, from a static library, beside the plain one: whether they agree, and what each takes. `tools/bench` builds and runs it.
//!
//!     bench agree COUNT FILE ..   the answers to COUNT made tokens, good and damaged, and to the files
//!     bench ratio FILE            the time of both on four tokens, the last of them in FILE
//!     bench sizes                 the time by size, of the whole product's library

use plain::read_token;
use std::hint::black_box;
use std::time::Instant;

// Moves all that is linked behind it: code placement alone changes a time by a fifth.
#[cfg(pad = "16")]
std::arch::global_asm!(".text", ".skip 16, 0xCC");
#[cfg(pad = "32")]
std::arch::global_asm!(".text", ".skip 32, 0xCC");
#[cfg(pad = "48")]
std::arch::global_asm!(".text", ".skip 48, 0xCC");

extern "C" {
    fn ours_read(token: *const u8, len: usize, value: *mut u64) -> u32;
}

#[cfg(product)]
extern "C" {
    fn ours_listing(token: *const u8, len: usize, end: usize, text: *mut u8, room: usize) -> usize;
    fn ours_record(transcript: *mut u8, room: usize, token: *const u8, len: usize, own: *const u8, own_len: usize) -> u32;
}

/// The plain reader behind the same signature as ours, which is all that a library of the kit exports: both are called alike.
#[inline(never)]
extern "C" fn plain_read(token: *const u8, len: usize, value: *mut u64) -> u32 {
    // `answer` passes a slice and a number.
    let (token, value) = unsafe { (std::slice::from_raw_parts(token, len), &mut *value) };
    match read_token(token) {
        Ok(messages) => {
            *value = u64::from(messages);
            0
        }
        Err(refusal) => {
            *value = refusal.place as u64;
            refusal.number
        }
    }
}

type Reader = unsafe extern "C" fn(*const u8, usize, *mut u64) -> u32;

/// A reader's answer: the refusal's number, 0 for none, and the number of messages or the place of the message at fault.
fn answer(reader: Reader, token: &[u8]) -> (u32, u64) {
    let mut value = 0;
    // Neither reader keeps the pointers.
    let number = unsafe { reader(token.as_ptr(), token.len(), &mut value) };
    (number, value)
}

// ---- tokens ----

const HEADERS: [usize; 8] = [96, 96, 64, 64, 64, 64, 80, 72];

fn put(m: &mut [u8], at: usize, value: u64, size: usize) {
    m[at..at + size].copy_from_slice(&value.to_le_bytes()[..size]);
}

/// A message of a kind with `body` behind its header, its own vector over all of it; a NEGO's over its schemes.
fn message(kind: usize, sequence: u32, body: &[u8]) -> Vec<u8> {
    let header = HEADERS[kind];
    let mut m = vec![0u8; header];
    m[..8].copy_from_slice(b"NEGOEXTS");
    put(&mut m, 8, kind as u64, 4);
    put(&mut m, 12, u64::from(sequence), 4);
    put(&mut m, 16, header as u64, 4);
    put(&mut m, 20, (header + body.len()) as u64, 4);
    m[24..40].copy_from_slice(b"a conversation!!");
    match kind {
        0 | 1 => {
            put(&mut m, 80, header as u64, 4);
            put(&mut m, 84, (body.len() / 16) as u64, 2);
        }
        2..=5 => {
            put(&mut m, 56, header as u64, 4);
            put(&mut m, 60, body.len() as u64, 4);
        }
        6 => {
            put(&mut m, 56, 20, 4);
            put(&mut m, 60, 1, 4);
            put(&mut m, 68, header as u64, 4);
            put(&mut m, 72, body.len() as u64, 4);
        }
        _ => {
            put(&mut m, 60, header as u64, 4);
            put(&mut m, 64, (body.len() / 12) as u64, 2);
        }
    }
    m.extend_from_slice(body);
    m
}

/// A NEGO with no scheme and `count` extensions, the value of each in the array itself.
fn extensions(count: usize) -> Vec<u8> {
    let mut body = vec![0u8; count * 12];
    for k in 0..count {
        put(&mut body, k * 12, k as u64, 4);
        put(&mut body, k * 12 + 4, 96 + (k as u64 * 7) % (count as u64 * 12 - 7), 4);
        put(&mut body, k * 12 + 8, 8, 4);
    }
    let mut m = message(0, 0, &body);
    put(&mut m, 84, 0, 2);
    put(&mut m, 88, 96, 4);
    put(&mut m, 92, count as u64, 2);
    m
}

/// `count` messages of 64 octets, from a number on.
fn empty_exchanges(first: u32, count: u32) -> Vec<u8> {
    (0..count).flat_map(|k| message(2, first + k, &[])).collect()
}

/// A NEGO and as many messages of 64 octets as fit.
fn many() -> Vec<u8> {
    let mut token = message(0, 0, &[9; 16]);
    let count = (65_535 - token.len()) / 64;
    token.extend(empty_exchanges(1, count as u32));
    token
}

// ---- agreement ----

struct Random(u64);

impl Random {
    fn next(&mut self) -> u64 {
        self.0 ^= self.0 << 13;
        self.0 ^= self.0 >> 7;
        self.0 ^= self.0 << 17;
        self.0.wrapping_mul(0x2545_F491_4F6C_DD1D) >> 11
    }

    fn below(&mut self, n: usize) -> usize {
        (self.next() % n as u64) as usize
    }
}

/// One to six messages of all kinds, arrays with values among them.
fn made(r: &mut Random) -> Vec<u8> {
    let mut token = Vec::new();
    let first = if r.below(20) == 0 { u32::MAX - r.below(3) as u32 } else { r.below(5) as u32 };
    for k in 0..1 + r.below(6) {
        let kind = r.below(8);
        let mut body = vec![0u8; r.below(90)];
        body.iter_mut().for_each(|x| *x = r.next() as u8);
        let mut m = message(kind, first.wrapping_add(k as u32), &body);
        if (kind < 2 || kind == 7) && r.below(2) == 0 {
            let (at, count) = if kind == 7 { (60, body.len() / 12) } else { (88, body.len() / 12) };
            put(&mut m, at, HEADERS[kind] as u64, 4);
            put(&mut m, at + 4, count as u64, 2);
            for e in 0..count {
                let place = HEADERS[kind] + e * 12;
                put(&mut m, place, if r.below(10) == 0 { 0x8000_0000 } else { r.below(100) as u64 }, 4);
                put(&mut m, place + 4, (HEADERS[kind] + r.below(body.len() + 1)) as u64, 4);
                put(&mut m, place + 8, r.below(12) as u64, 4);
                if r.below(3) == 0 {
                    put(&mut m, place + 8, 0, 4);
                }
            }
        }
        token.extend(m);
    }
    token
}

/// Nought to four damages: octets, bits, fields at their limits, cuts.
fn damaged(r: &mut Random, mut token: Vec<u8>) -> Vec<u8> {
    const FIELDS: [usize; 16] = [8, 12, 16, 20, 24, 56, 60, 64, 68, 72, 80, 84, 88, 92, 96, 100];
    const VALUES: [u64; 12] = [0, 1, 63, 64, 65, 96, 97, 112, 0x7FFF_FFFF, 0x8000_0000, 0xFFFF_FFFE, 0xFFFF_FFFF];
    for _ in 0..r.below(5) {
        if token.len() < 4 {
            break;
        }
        let at = r.below(token.len() - 3);
        match r.below(6) {
            0 => token[at] = r.next() as u8,
            1 => token[at] ^= 1 << r.below(8),
            2 => put(&mut token, at, VALUES[r.below(12)], 4),
            3 | 4 => {
                let field = FIELDS[r.below(16)];
                if field + 4 <= token.len() {
                    let value = if r.below(2) == 0 { VALUES[r.below(12)] } else { r.below(token.len() + 2) as u64 };
                    put(&mut token, field, value, 4);
                }
            }
            _ => token.truncate(at),
        }
    }
    token
}

fn agree(count: usize, files: &[String]) {
    let mut r = Random(0x9E37_79B9_7F4A_7C15);
    let mut accepted = 0usize;
    let mut refused = [0usize; 14];
    let mut see = |token: &[u8], what: &str| {
        let (a, b) = (answer(ours_read, token), answer(plain_read, token));
        if a != b {
            println!("disagree on {what}: ours {a:?}, plain {b:?}, octets {token:02X?}");
            std::process::exit(1);
        }
        match a.0 {
            0 => accepted += 1,
            number => refused[number as usize] += 1,
        }
    };
    for file in files {
        see(&std::fs::read(file).expect(file), file);
    }
    let mut tokens = vec![many(), extensions(5_000), message(2, 0, &vec![0; 65_471]), message(2, 0, &vec![0; 65_472]), Vec::new()];
    tokens.push([many(), vec![0; 64]].concat());
    tokens.iter().for_each(|token| see(token, "a long token"));
    for k in 0..count {
        let good = made(&mut r);
        see(&damaged(&mut r, good), &format!("made token {k}"));
    }
    println!("agree on {count} made tokens and {} files: accepted {accepted}, refused by 1 to 13 {:?}", files.len(), &refused[1..]);
}

// ---- time ----

/// Nanoseconds of a call, over enough calls for some 20 microseconds.
fn time(calls: usize, mut f: impl FnMut()) -> f64 {
    let start = Instant::now();
    (0..calls).for_each(|_| f());
    start.elapsed().as_nanos() as f64 / calls as f64
}

fn calls_for(mut f: impl FnMut()) -> usize {
    let one = time(100, &mut f).max(1.0);
    ((20_000.0 / one) as usize).clamp(1, 10_000)
}

fn median(mut x: Vec<f64>) -> f64 {
    x.sort_by(f64::total_cmp);
    x[x.len() / 2]
}

/// The token at a start in its cache line that each round moves on.
fn placed<'a>(buffer: &'a mut Vec<u8>, token: &[u8], round: usize) -> &'a [u8] {
    let aligned = buffer.as_ptr().align_offset(64);
    let at = aligned + round * 17 % 64;
    buffer[at..at + token.len()].copy_from_slice(token);
    &buffer[at..at + token.len()]
}

/// Nanoseconds of a reader's call, over so many calls.
fn read_time(reader: Reader, calls: usize, token: &[u8]) -> f64 {
    let reader = black_box(reader);
    time(calls, || {
        black_box(answer(reader, black_box(token)));
    })
}

fn ratio(file: &str) {
    let small = std::fs::read(file).expect(file);
    let tokens = [("one", message(2, 0, &vec![7; 65_471])), ("many", many()), ("extensions", extensions(5_000)), ("small", small)];
    for (name, token) in tokens {
        assert_eq!(answer(ours_read, &token), answer(plain_read, &token));
        assert_eq!(answer(ours_read, &token).0, 0, "{name} is refused");
        let mut buffer = vec![0u8; token.len() + 192];
        let calls = calls_for(|| {
            black_box(answer(ours_read, black_box(&token)));
        });
        let (mut ours, mut plain, mut ratios) = (Vec::new(), Vec::new(), Vec::new());
        for round in 0..301 {
            let t = placed(&mut buffer, &token, round);
            let (a, b) = if round % 2 == 0 {
                let a = read_time(ours_read, calls, t);
                (a, read_time(plain_read, calls, t))
            } else {
                let b = read_time(plain_read, calls, t);
                (read_time(ours_read, calls, t), b)
            };
            ours.push(a);
            plain.push(b);
            ratios.push(a / b);
        }
        println!("{name} {:.1} {:.1} {:.2}", median(ours), median(plain), median(ratios));
    }
}

#[cfg(not(product))]
fn sizes() {
    println!("sizes are measured with the whole product's library");
}

/// The least of many rounds.
#[cfg(product)]
fn least(mut round: impl FnMut() -> f64) -> f64 {
    (0..301).map(|_| round()).fold(f64::INFINITY, f64::min)
}

#[cfg(product)]
fn sizes() {
    let row = |what: &str, size: usize, ns: f64| println!("{what} {size} {ns:.1} {:.2}", ns / size.max(1) as f64);
    let reading = |token: &[u8]| {
        assert_eq!(answer(ours_read, token).0, 0);
        let calls = calls_for(|| {
            black_box(answer(ours_read, black_box(token)));
        });
        least(|| read_time(ours_read, calls, token))
    };
    let mut text = vec![0u8; 1 << 20];
    let mut listing = |token: &[u8]| {
        let mut call = || {
            black_box(unsafe { ours_listing(token.as_ptr(), token.len(), usize::MAX, text.as_mut_ptr(), text.len()) });
        };
        let calls = calls_for(&mut call);
        least(|| time(calls, &mut call))
    };
    let mut transcript = vec![0u8; 65_536];
    let own = [9u8; 16];
    let mut record = |token: &[u8]| {
        let mut call = || unsafe { ours_record(transcript.as_mut_ptr(), transcript.len(), token.as_ptr(), token.len(), own.as_ptr(), own.len()) };
        assert_eq!(call(), 0);
        let mut call = || {
            black_box(call());
        };
        let calls = calls_for(&mut call);
        least(|| time(calls, &mut call))
    };
    let offer = |octets: usize| {
        let mut metadata = message(2, 1, &vec![5; octets - 176]);
        metadata[40..56].fill(9);
        [message(0, 0, &[9; 16]), metadata].concat()
    };
    [64, 1_024, 65_535].into_iter().for_each(|octets| row("reading-by-octets", octets, reading(&message(2, 0, &vec![7; octets - 64]))));
    [1, 16, 256, 1_023].into_iter().for_each(|messages| row("reading-by-messages", messages, reading(&empty_exchanges(0, messages as u32))));
    [0, 1, 10, 100, 1_000, 5_400].into_iter().for_each(|elements| row("reading-by-elements", elements, reading(&extensions(elements))));
    [256, 1_024, 4_096, 16_384, 65_535].into_iter().for_each(|octets| row("record-by-octets", octets, record(&offer(octets))));
    [1, 16, 256, 1_023].into_iter().for_each(|messages| row("listing-by-messages", messages, listing(&empty_exchanges(0, messages as u32))));
    [0, 10, 100, 1_000, 5_400].into_iter().for_each(|elements| row("listing-by-elements", elements, listing(&extensions(elements))));
}

fn main() {
    let args: Vec<String> = std::env::args().skip(1).collect();
    match args.iter().map(String::as_str).collect::<Vec<_>>()[..] {
        ["agree", count, ..] => agree(count.parse().expect("a number"), &args[2..]),
        ["ratio", file] => ratio(file),
        ["sizes"] => sizes(),
        _ => println!("bench agree COUNT FILE .. | ratio FILE | sizes"),
    }
}
