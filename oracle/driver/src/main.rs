//! A recipe in hex on each line of standard input, the crate's table in hex on each line of standard output, or `panic` where
//! the crate panics.
use driver::table;
use std::io::{BufRead, Write};

fn from_hex(line: &str) -> Vec<u8> {
    (0..line.len() / 2).map(|i| u8::from_str_radix(&line[2 * i..2 * i + 2], 16).expect("hex")).collect()
}

fn main() {
    std::panic::set_hook(Box::new(|_| {}));
    let stdout = std::io::stdout();
    let mut out = std::io::BufWriter::new(stdout.lock());
    for line in std::io::stdin().lock().lines() {
        let recipe = from_hex(line.expect("a line").trim());
        match std::panic::catch_unwind(|| table(&recipe)) {
            Ok(bytes) => {
                let hex: String = bytes.iter().map(|b| format!("{b:02x}")).collect();
                writeln!(out, "{hex}").expect("written");
            }
            Err(_) => writeln!(out, "panic").expect("written"),
        }
    }
}
