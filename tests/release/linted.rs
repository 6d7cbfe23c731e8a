//! Mistakes in the sheets of standard input, for tests/checkout.py. Each sheet is a length of 8 bytes and the bytes. The answer to each,
//! with its length first, is a line for each mistake, as the C library writes it.
use simplecss::modern::{lint, Finding};
use std::io::{Read, Write};

fn line(it: &Finding) -> String {
    let hint = it.hint.as_deref().unwrap_or_default();
    let edit = it.edit.iter().map(|edit| format!("\t{}\t{}\t{}", edit.range.start, edit.range.end, edit.text));
    format!("{}\t{}\t{}\t{hint}{}\n", it.kind, it.range.start, it.range.end, edit.collect::<String>())
}

fn main() {
    let mut data = Vec::new();
    std::io::stdin().read_to_end(&mut data).unwrap();
    let (mut left, mut out) = (&data[..], Vec::new());
    while !left.is_empty() {
        let (length, rest) = left.split_at(8);
        let (text, rest) = rest.split_at(u64::from_le_bytes(length.try_into().unwrap()) as usize);
        let answer: String = lint(std::str::from_utf8(text).unwrap()).iter().map(line).collect();
        out.extend((answer.len() as u64).to_le_bytes());
        out.extend(answer.as_bytes());
        left = rest;
    }
    std::io::stdout().write_all(&out).unwrap();
}
