//! The plain readers as a program: of the files that standard input names, one a line, what the programs `examples`, `recover_examples`, `envelopes` or `scripts` have to print.
//!
//!     told examples|recover_examples|envelopes|scripts <NAMES

// The comparison of docs/src/damage.rs uses the rest.
#![allow(dead_code)]

mod conversation;
mod message;
mod script;
mod shown;
mod spnego;

fn main() {
    let program = std::env::args().nth(1).unwrap_or_default();
    let word = if program == "scripts" { "script" } else { "file" };
    for name in std::io::stdin().lines() {
        let name = name.expect("a name");
        println!("{word} {name}");
        let Ok(octets) = std::fs::read(&name) else {
            println!("no file");
            continue;
        };
        print!(
            "{}",
            match program.as_str() {
                "examples" => shown::Token::read(&octets).lines().concat(),
                "recover_examples" => shown::recovered(&octets).concat(),
                "envelopes" => spnego::text(&octets),
                "scripts" => script::play(&octets),
                _ => panic!("told examples|recover_examples|envelopes|scripts <NAMES"),
            }
        );
    }
}
