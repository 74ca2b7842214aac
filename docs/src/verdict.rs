//! The plain reader as a program: of each file that is named, what the last line of its listing has to be.

use plain::{read_token, Refusal};

fn main() {
    for name in std::env::args().skip(1) {
        let token = std::fs::read(&name).unwrap_or_else(|e| panic!("{name}: {e}"));
        match read_token(&token) {
            Ok(messages) => println!("end messages={messages} octets={}", token.len()),
            Err(Refusal { number, place }) => println!("refused {number} at={place}"),
        }
    }
}
