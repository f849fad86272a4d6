//! A yardstick for appends: reads a script whole, copies it, decodes the bytes that each append gives, and keeps them. It does nothing
//! with them.
use std::io::{self, Read};

fn digit(letter: u8) -> u8 {
    match letter {
        b'0'..=b'9' => letter - b'0',
        b'a'..=b'f' => letter - b'a' + 10,
        _ => panic!("no hexadecimal digit"),
    }
}

fn decode(word: &[u8]) -> Vec<u8> {
    word.chunks_exact(2).map(|pair| digit(pair[0]) << 4 | digit(pair[1])).collect()
}

fn main() -> io::Result<()> {
    let mut input = Vec::new();
    io::stdin().read_to_end(&mut input)?;
    let copy = input.clone();
    let mut blocks = Vec::new();
    for line in copy.split(|&byte| byte == b'\n') {
        let words: Vec<&[u8]> = line.split(|&byte| byte == b' ').collect();
        if let [_, b"append", _, bytes] = words[..] {
            blocks.push(decode(bytes));
        }
    }
    println!("{} blocks, {} bytes", blocks.len(), blocks.iter().map(Vec::len).sum::<usize>());
    Ok(())
}
