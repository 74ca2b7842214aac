//! The proved library's functions as safe Rust: those of crates/host/negoex.h, and those of docs/src/damage/lib.rt.in. Every buffer that is lent holds a known octet everywhere, and
//! is handed back whole, so that a comparison sees each octet that a call has changed.

use std::ffi::c_char;
use std::fs::File;
use std::io::{Read, Seek, SeekFrom};
use std::os::fd::{AsRawFd, FromRawFd};

extern "C" {
    fn negoex_messages(token: *const u8, size: usize) -> i64;
    fn negoex_place(token: *const u8, size: usize) -> i64;
    fn negoex_field(token: *const u8, size: usize, message: usize, field: usize) -> i64;
    fn negoex_conversation(token: *const u8, size: usize, message: usize, buffer: *mut u8, room: usize) -> i64;
    fn negoex_vectors(token: *const u8, size: usize, message: usize) -> i64;
    fn negoex_vector_place(token: *const u8, size: usize, message: usize, vector: usize) -> i64;
    fn negoex_vector_length(token: *const u8, size: usize, message: usize, vector: usize) -> i64;
    fn negoex_lines(token: *const u8, size: usize) -> i64;
    fn negoex_window(token: *const u8, size: usize, first: usize, end: usize, buffer: *mut u8, room: usize) -> i64;
    fn negoex_table(token: *const u8, size: usize, buffer: *mut u8, room: usize) -> i64;
    fn negoex_entry_count(token: *const u8, size: usize) -> i64;
    fn negoex_entries(token: *const u8, size: usize, first: usize, buffer: *mut u8, room: usize) -> i64;
    fn negoex_fault(token: *const u8, size: usize, buffer: *mut u8, room: usize) -> i64;
    fn negoex_coverage(token: *const u8, size: usize, buffer: *mut u8, room: usize) -> i64;
    fn negoex_envelope_place(envelope: *const u8, size: usize) -> i64;
    fn negoex_envelope_length(envelope: *const u8, size: usize) -> i64;
    fn damage_recovered(file: *const u8, size: usize, first: usize, end: usize, text: *mut u8, room: usize) -> usize;
    fn damage_blanked(token: *mut u8, size: usize, value: *mut u64) -> u32;
    fn damage_envelope(text: *mut u8, room: usize, envelope: *const u8, size: usize) -> usize;
    fn damage_played(buffer: *mut u8, room: usize, octets: usize);
    fn dup(fd: i32) -> i32;
    fn dup2(from: i32, to: i32) -> i32;
    fn memfd_create(name: *const c_char, flags: u32) -> i32;
}

/// What stands in a lent buffer where nothing was written.
const UNTOUCHED: u8 = 0xA5;

/// A call's answer, and the buffer that was lent to it.
#[derive(PartialEq, Eq)]
pub struct Lent {
    answer: i64,
    buffer: Vec<u8>,
}

impl std::fmt::Debug for Lent {
    fn fmt(&self, to: &mut std::fmt::Formatter) -> std::fmt::Result {
        write!(to, "{} \"{}\"", self.answer, self.buffer.escape_ascii())
    }
}

impl Lent {
    pub fn refused(number: u32, room: usize) -> Lent {
        Lent { answer: -i64::from(number), buffer: vec![UNTOUCHED; room] }
    }

    pub fn answered(front: &[u8], room: usize) -> Lent {
        let mut buffer = front.to_vec();
        buffer.resize(room, UNTOUCHED);
        Lent { answer: front.len() as i64, buffer }
    }

    fn to(room: usize, call: impl FnOnce(*mut u8, usize) -> i64) -> Lent {
        let mut buffer = vec![UNTOUCHED; room];
        let answer = call(buffer.as_mut_ptr(), room);
        Lent { answer, buffer }
    }
}

// Each pointer below is that of a slice or a vector, with its length: never null, and alive during the call. No function keeps one.

pub fn messages(t: &[u8]) -> i64 {
    unsafe { negoex_messages(t.as_ptr(), t.len()) }
}

pub fn place(t: &[u8]) -> i64 {
    unsafe { negoex_place(t.as_ptr(), t.len()) }
}

pub fn field(t: &[u8], message: usize, field: usize) -> i64 {
    unsafe { negoex_field(t.as_ptr(), t.len(), message, field) }
}

pub fn conversation(t: &[u8], message: usize, room: usize) -> Lent {
    Lent::to(room, |buffer, room| unsafe { negoex_conversation(t.as_ptr(), t.len(), message, buffer, room) })
}

pub fn vectors(t: &[u8], message: usize) -> i64 {
    unsafe { negoex_vectors(t.as_ptr(), t.len(), message) }
}

pub fn vector_place(t: &[u8], message: usize, vector: usize) -> i64 {
    unsafe { negoex_vector_place(t.as_ptr(), t.len(), message, vector) }
}

pub fn vector_length(t: &[u8], message: usize, vector: usize) -> i64 {
    unsafe { negoex_vector_length(t.as_ptr(), t.len(), message, vector) }
}

pub fn lines(t: &[u8]) -> i64 {
    unsafe { negoex_lines(t.as_ptr(), t.len()) }
}

pub fn window(t: &[u8], first: usize, end: usize, room: usize) -> Lent {
    Lent::to(room, |buffer, room| unsafe { negoex_window(t.as_ptr(), t.len(), first, end, buffer, room) })
}

pub fn table(t: &[u8], room: usize) -> Lent {
    Lent::to(room, |buffer, room| unsafe { negoex_table(t.as_ptr(), t.len(), buffer, room) })
}

pub fn entry_count(t: &[u8]) -> i64 {
    unsafe { negoex_entry_count(t.as_ptr(), t.len()) }
}

pub fn entries(t: &[u8], first: usize, room: usize) -> Lent {
    Lent::to(room, |buffer, room| unsafe { negoex_entries(t.as_ptr(), t.len(), first, buffer, room) })
}

pub fn fault(t: &[u8], room: usize) -> Lent {
    Lent::to(room, |buffer, room| unsafe { negoex_fault(t.as_ptr(), t.len(), buffer, room) })
}

pub fn coverage(t: &[u8], room: usize) -> Lent {
    Lent::to(room, |buffer, room| unsafe { negoex_coverage(t.as_ptr(), t.len(), buffer, room) })
}

pub fn envelope_place(e: &[u8]) -> i64 {
    unsafe { negoex_envelope_place(e.as_ptr(), e.len()) }
}

pub fn envelope_length(e: &[u8]) -> i64 {
    unsafe { negoex_envelope_length(e.as_ptr(), e.len()) }
}

pub fn recovered(file: &[u8], first: usize, end: usize, room: usize) -> Lent {
    Lent::to(room, |text, room| unsafe { damage_recovered(file.as_ptr(), file.len(), first, end, text, room) as i64 })
}

/// The refusal's number, 0 for none; the number of messages or the place of the message at fault; the token behind the call.
pub fn blanked(t: &[u8]) -> (u32, u64, Vec<u8>) {
    let mut token = t.to_vec();
    let mut value = 0;
    let number = unsafe { damage_blanked(token.as_mut_ptr(), token.len(), &mut value) };
    (number, value, token)
}

pub fn envelope_text(e: &[u8], room: usize) -> Lent {
    Lent::to(room, |text, room| unsafe { damage_envelope(text, room, e.as_ptr(), e.len()) as i64 })
}

// ---- scripts ----

fn memory_file(name: &std::ffi::CStr) -> File {
    // A new descriptor, or an error, which the assertion sees.
    unsafe {
        let fd = memfd_create(name.as_ptr(), 0);
        assert!(fd >= 0, "no memory for a file");
        File::from_raw_fd(fd)
    }
}

/// As many octets as the program `converse` lends for a script: one more than the longest has.
const SCRIPT_BUFFER: usize = 262_144;

/// Plays scripts as `converse` does: from a buffer that holds the file, to standard output, which goes to a file while a player is there.
pub struct Player {
    printed: File,
    stdout: i32,
    buffer: Vec<u8>,
}

impl Player {
    pub fn new() -> Player {
        let printed = memory_file(c"printed");
        let stdout = unsafe { dup(1) };
        assert!(stdout >= 0 && unsafe { dup2(printed.as_raw_fd(), 1) } == 1, "standard output can't be moved");
        Player { printed, stdout, buffer: vec![UNTOUCHED; SCRIPT_BUFFER] }
    }

    /// What the script is answered with, and the buffer that was lent.
    pub fn play(&mut self, script: &[u8]) -> (String, Vec<u8>) {
        self.printed.set_len(0).and_then(|()| self.printed.rewind()).expect("a memory file");
        self.buffer = self.expected(script);
        unsafe { damage_played(self.buffer.as_mut_ptr(), self.buffer.len(), script.len().min(SCRIPT_BUFFER)) };
        let mut text = Vec::new();
        self.printed.seek(SeekFrom::Start(0)).and_then(|_| self.printed.read_to_end(&mut text)).expect("a memory file");
        (String::from_utf8_lossy(&text).into_owned(), self.buffer.clone())
    }

    /// The lent buffer as it has to be: the script at its front, as far as it fits, and the rest as it was.
    pub fn expected(&self, script: &[u8]) -> Vec<u8> {
        let mut buffer = script[..script.len().min(SCRIPT_BUFFER)].to_vec();
        buffer.resize(SCRIPT_BUFFER, UNTOUCHED);
        buffer
    }
}

impl Drop for Player {
    fn drop(&mut self) {
        unsafe { dup2(self.stdout, 1) };
    }
}
