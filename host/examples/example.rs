//! Reserves code space for two copies of document 01's block of no operations by the number of words that it needs, translates it there, copies it
//! behind itself, and links the first copy's chain site with the second copy's body.
use std::error::Error;
use werfund::{link, Translator};

/// Tag, length of two bytes, payload; numbers have their lowest byte first.
fn field(tag: u8, payload: &[u8]) -> Vec<u8> {
    let length = (payload.len() as u16).to_le_bytes();
    [&[tag], &length[..], payload].concat()
}

fn numbers(numbers: &[u32]) -> Vec<u8> {
    numbers.iter().flat_map(|n| n.to_le_bytes()).collect()
}

fn record() -> Vec<u8> {
    // regs, sp, rets, pc, hold in the processor record
    let offsets = numbers(&[0, 64, 68, 72, 76]);
    // RAM, XIP, no code map
    let memory = [
        numbers(&[0x01000000, 0x00010000, 0x02000000, 0x00100000]),
        vec![0],
    ]
    .concat();
    // h_read, h_write, jump table
    let addresses = [0; 24];
    [
        field(1, &offsets),
        field(2, &memory),
        field(3, &addresses),
        field(4, &numbers(&[0x02000000])),
    ]
    .concat()
}

fn main() -> Result<(), Box<dyn Error>> {
    let record = record();
    let mut translator = Translator::new();
    let words = translator.words_needed(&record)?;
    println!("needs {words}");
    let mut code = vec![0; 2 * words];
    let block = translator.translate(&record, &mut code[..words])?;
    println!(
        "words {} body {} sites {}",
        block.words,
        block.body,
        block.sites().len()
    );
    code.copy_within(..words, words);

    // Addresses as the processor will see them; here, those of the buffer.
    let address = |word: usize| code.as_ptr() as i64 + 4 * word as i64;
    let site = block.sites()[0];
    println!(
        "site {} to {:08x}, word {:08x}",
        site.at, site.target, code[site.at]
    );
    let branch = link(address(site.at), address(words) + block.body as i64)?;
    code[site.at] = branch; // on the card, the instruction cache is then told
    println!("linked, word {:08x}", code[site.at]);
    Ok(())
}
