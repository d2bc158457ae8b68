//! The host's side in Rust: every case of a file through the wrapper, compared with its frozen answers; each that needs words twice more, with exactly
//! these lent and with one fewer; and the boundary.
//!
//!     tests CASES [COUNT]
//!
//! The form of a case is at the head of tools/block_cases.py. With COUNT only the first cases are compared. Prints what was compared, and the
//! checks by name where they fail. The exit status is 0 where nothing differs.
use std::collections::{BTreeMap, BTreeSet};
use std::process::ExitCode;
use werfund::{link, Block, Fault, LinkFault, Site, Translator};

/// What lent words hold before a call, so that one that is left as it was can be told from one that is written.
const BEFORE: u32 = 0x5a5a5a5a;

#[derive(Default)]
struct Checks {
    made: usize,
    failed: usize,
}

impl Checks {
    fn check(&mut self, holds: bool, what: &str) {
        self.made += 1;
        if !holds {
            self.failed += 1;
            println!("failed: {what}");
        }
    }
}

fn fault(number: u32, place: usize) -> Fault {
    Fault { number, place }
}

/// Numbers of 32 bits, little-endian.
fn numbers(bytes: &[u8]) -> Vec<u32> {
    bytes
        .chunks_exact(4)
        .map(|b| u32::from_le_bytes(b.try_into().unwrap()))
        .collect()
}

/// A case: the words lent, the frozen answer with its words, the words needed whatever is lent, and the record.
struct Case {
    lent: usize,
    answer: Result<(usize, usize, Vec<Site>), Fault>,
    need: Result<usize, Fault>,
    record: Vec<u8>,
    words: Vec<u32>,
}

/// The first case of a file's bytes, and the bytes behind it.
fn next(bytes: &[u8]) -> (Case, &[u8]) {
    let (case, behind) = bytes[4..].split_at(numbers(&bytes[..4])[0] as usize);
    let n = numbers(&case[..56]);
    let (record, words) = case[56..].split_at(n[13] as usize);
    let answer = match n[1] {
        0 => {
            let both = [
                Site {
                    at: n[6] as usize,
                    target: n[7],
                },
                Site {
                    at: n[8] as usize,
                    target: n[9],
                },
            ];
            Ok((n[3] as usize, n[4] as usize, both[..n[5] as usize].to_vec()))
        }
        number => Err(fault(number, n[2] as usize)),
    };
    let need = match n[10] {
        0 => Ok(n[12] as usize),
        number => Err(fault(number, n[11] as usize)),
    };
    (
        Case {
            lent: n[0] as usize,
            answer,
            need,
            record: record.to_vec(),
            words: numbers(words),
        },
        behind,
    )
}

fn parts(block: Block) -> (usize, usize, Vec<Site>) {
    (block.words, block.body, block.sites().to_vec())
}

/// Whether a block's sites stand by rising word position, inside its words.
fn rising(sites: &[Site], words: usize) -> bool {
    sites.windows(2).all(|two| two[0].at < two[1].at) && sites.iter().all(|site| site.at < words)
}

/// Whether a case's answer and every lent word are the frozen ones, the sites in order.
fn same(c: &Case, translator: &mut Translator) -> bool {
    let mut words = vec![BEFORE; c.lent];
    let answer = translator.translate(&c.record, &mut words).map(parts);
    let rest = if answer.is_ok() { BEFORE } else { 0 };
    answer == c.answer
        && answer.map_or(true, |(words, _, sites)| rising(&sites, words))
        && words.len() >= c.words.len()
        && words[..c.words.len()] == c.words
        && words[c.words.len()..].iter().all(|w| *w == rest)
}

/// Whether a block is accepted where exactly the words that it needs are lent, and answered 10 where one fewer is.
fn exact(c: &Case, needed: usize, translator: &mut Translator) -> bool {
    let mut words = vec![BEFORE; needed];
    let accepted = translator
        .translate(&c.record, &mut words)
        .map_or(false, |block| block.words == needed)
        && words.starts_with(&c.words);
    words.fill(BEFORE);
    let ten = Err(fault(10, c.record.len()));
    let refused = translator.translate(&c.record, &mut words[1..]) == ten;
    accepted && refused && words[0] == BEFORE && words[1..].iter().all(|w| *w == 0)
}

fn cases(path: &str, count: usize, checks: &mut Checks) {
    let file = std::fs::read(path).expect(path);
    let mut rest = &file[..];
    let mut translator = Translator::new();
    let (mut cases, mut refused, mut words, mut different) = (0, 0, 0, 0);
    let (mut needs, mut inexact) = (0, 0);
    while cases < count && !rest.is_empty() {
        let (case, behind) = next(rest);
        rest = behind;
        cases += 1;
        refused += case.answer.is_err() as usize;
        words += case.words.len();
        let need = translator.words_needed(&case.record);
        different += !(same(&case, &mut translator) && need == case.need) as usize;
        if matches!(case.answer, Ok(_) | Err(Fault { number: 10, .. })) {
            needs += 1;
            let holds = case
                .need
                .map_or(false, |needed| exact(&case, needed, &mut translator));
            inexact += !holds as usize;
        }
    }
    println!("cases {cases}\nrefused {refused}\nwords {words}\ndifferent {different}");
    println!("exact {}", needs - inexact);
    checks.check(different == 0, "a case differs");
    checks.check(
        inexact == 0,
        "a block is not accepted with the words that it needs, or is with one fewer",
    );
}

/// Document 01's block of no operations, at another address and behind `nops` Nops of two bytes.
fn block(address: u32, nops: usize) -> Vec<u8> {
    let number = |n: u32| n.to_le_bytes();
    let mut record = vec![1, 20, 0];
    record.extend([0, 64, 68, 72, 76].map(number).concat());
    record.extend([2, 17, 0]);
    record.extend(
        [0x01000000, 0x00010000, 0x02000000, 0x00100000]
            .map(number)
            .concat(),
    );
    record.extend([0, 3, 24, 0]);
    record.extend([0; 24]);
    record.extend([4, 4, 0]);
    record.extend(number(address));
    record.extend([5, 3, 0, 0, 2, 0].repeat(nops));
    record
}

fn boundary(checks: &mut Checks) {
    let record = block(0x02000000, 0);
    let mut translator = Translator::new();
    let mut words = [BEFORE; 3];
    checks.check(
        translator.translate(&[], &mut words) == Err(fault(1, 0)),
        "an empty record is fault 1 at 0",
    );
    checks.check(words == [0; 3], "and its lent words are 0");
    checks.check(
        translator.translate(&record, &mut []) == Err(fault(10, 77)),
        "no words are fault 10 at 77",
    );
    checks.check(
        translator.translate(&[], &mut []) == Err(fault(1, 0)),
        "nothing at all is fault 1 at 0",
    );

    checks.check(
        translator.words_needed(&record) == Ok(35),
        "35 words are needed",
    );
    checks.check(
        translator.words_needed(&record[..76]) == Err(fault(1, 70)),
        "a cut record is fault 1 at 70, counted",
    );
    checks.check(
        translator.words_needed(&[]) == Err(fault(1, 0)),
        "an empty record is fault 1 at 0, counted",
    );

    for lent in 34..=36 {
        let mut words = [BEFORE; 40];
        let answer = translator.translate(&record, &mut words[..lent]);
        checks.check(
            answer.is_ok() == (lent >= 35),
            "35 words are enough, and 34 are not",
        );
        checks.check(
            words[if lent < 35 { 34 } else { 35 }..]
                .iter()
                .all(|w| *w == BEFORE),
            "the words beyond are untouched",
        );
    }
}

/// The field of an operation of two bytes.
fn operation(kind: u8, operands: &[u32]) -> Vec<u8> {
    let numbers = operands.iter().flat_map(|n| n.to_le_bytes());
    let head = [5, 3 + 4 * operands.len() as u8, 0, kind, 2, 0];
    head.into_iter().chain(numbers).collect()
}

/// Two sites: a BrI's, the address behind it first, wherever it jumps to (2026-05).
fn two_sites(checks: &mut Checks) {
    let mut translator = Translator::new();
    for target in [0x02000000, 0x02000002, 0x02000010] {
        let mut record = block(0x02000000, 0);
        record.extend(operation(30, &[0, 0, 0, target]));
        let mut words = [BEFORE; 64];
        let (count, _, sites) = parts(translator.translate(&record, &mut words).expect("a block"));
        let targets: Vec<u32> = sites.iter().map(|site| site.target).collect();
        checks.check(
            targets == [0x02000002, target],
            "the address behind is listed first",
        );
        checks.check(
            rising(&sites, count) && sites.iter().all(|site| words[site.at] == 0x14000001),
            "by rising word position, each at its branch",
        );
    }
}

/// Groups: 32 BlockMoves of 16 loads each, for which 16,384 words are too few; a pair, also where RAM is shorter than it; and a kind that
/// there is not.
fn groups(checks: &mut Checks) {
    let mut translator = Translator::new();
    let mut record = block(0x02000000, 0);
    record.extend(operation(40, &[7, 0xffff, 0, 1, 0]).repeat(32));
    checks.check(
        translator.words_needed(&record) == Ok(21064),
        "32 groups need 21,064 words",
    );
    let mut words = vec![BEFORE; 21064];
    checks.check(
        translator.translate(&record, &mut words[..16384]) == Err(fault(10, record.len())),
        "16,384 are fault 10 at the record's length",
    );
    checks.check(
        words[..16384].iter().all(|w| *w == 0) && words[16384..].iter().all(|w| *w == BEFORE),
        "and are 0, the words beyond untouched",
    );
    checks.check(
        translator
            .translate(&record, &mut words)
            .map_or(false, |block| block.words == 21064),
        "21,064 are enough",
    );

    let mut pair = block(0x02000000, 0);
    pair.extend(operation(43, &[0, 0, 0]));
    checks.check(
        translator.words_needed(&pair) == Ok(102),
        "a pair needs 102",
    );
    pair[30..34].copy_from_slice(&4u32.to_le_bytes());
    checks.check(
        translator.words_needed(&pair) == Err(fault(4, 77)),
        "with a RAM of 4 bytes it is fault 4 at 77",
    );
    pair[80] = 50;
    checks.check(
        translator.words_needed(&pair) == Err(fault(3, 77)),
        "and kind 50 is fault 3 at 77",
    );
}

/// Addressing forms: each kind, with i a register and not, at the edge of its operands (2026-09).
fn forms(checks: &mut Checks) {
    let forms: [(u8, &[u32], Result<(usize, usize), u32>); 13] = [
        (45, &[1, 2, 15, 4, 0, 0], Ok((80, 1))), // LdPre by a register,
        (45, &[1, 2, 16, 4, 0, 4096], Ok((78, 1))), // by the increment
        (45, &[1, 2, 256, 4, 0, 4], Err(4)),     // and by neither
        (46, &[1, 2, 15, 4, 0], Ok((74, 1))),    // StPre
        (46, &[1, 2, 255, 2, 4], Ok((72, 1))),
        (47, &[1, 2, 15, 2, 1], Ok((86, 1))), // LdPostR,
        (47, &[1, 2, 16, 2, 1], Err(4)),      // whose i is a register
        (48, &[2, 8, 1, 0, 3], Ok((96, 1))),  // MemA4
        (48, &[2, 8, 11, 0, 3], Err(4)),
        (49, &[3, 0], Ok((76, 0))), // Tb jumps
        (49, &[3, 1], Ok((80, 0))),
        (49, &[3, 2], Err(4)),
        (50, &[3, 1], Err(3)), // there is no such kind
    ];
    let mut translator = Translator::new();
    for (kind, operands, expected) in forms {
        let mut record = block(0x02000000, 0);
        record.extend(operation(kind, operands));
        let expected = expected.map_err(|number| fault(number, 77));
        let mut words = [BEFORE; 97];
        let answer = translator.translate(&record, &mut words).map(|block| {
            let (count, _, sites) = parts(block);
            (count, sites.len())
        });
        checks.check(answer == expected, "a form");
        checks.check(
            match answer {
                Ok((count, _)) => words[count..].iter().all(|w| *w == BEFORE),
                Err(_) => words == [0; 97],
            },
            "no word beyond, or its words are 0",
        );
        checks.check(
            translator.words_needed(&record) == expected.map(|(count, _)| count),
            "a form, counted",
        );
    }
}

/// Layouts of the processor record: the whole of one is tested for 5, then for 14, then for 15 (2026-03).
fn layouts(checks: &mut Checks) {
    let layouts = [
        ([0, 62, 68, 72, 76], 14),     // document 01's example
        ([0, 60, 68, 72, 76], 15),     // sp among the registers
        ([0, 64, 64, 72, 76], 15),     // sp at rets
        ([16324, 64, 68, 72, 76], 5),  // regs plus 60 is 16384,
        ([16321, 64, 68, 72, 76], 14), // and here below it
        ([0, 64, 68, 72, 16384], 5),
        ([u32::MAX, 64, 66, 72, 76], 5), // 5 before 14: regs plus 60 does not wrap
        ([0, 64, 64, 72, 16386], 5),     // 5 before 14 and 15
        ([1, 68, 72, 76, 80], 14),
        ([2, 0, 4, 8, 12], 14),    // 14 before 15
        ([16, 12, 8, 4, 0], 0),    // in any order,
        ([16320, 0, 4, 8, 12], 0), // up to the last that fits
        ([0, 64, 68, 72, 16380], 0),
    ];
    let mut translator = Translator::new();
    for (offsets, number) in layouts {
        let mut record = block(0x02000000, 0);
        record[3..23].copy_from_slice(&offsets.map(u32::to_le_bytes).concat());
        let expected = match number {
            0 => Ok(35),
            _ => Err(fault(number, 0)),
        };
        let mut words = [BEFORE; 36];
        let answer = translator.translate(&record, &mut words);
        checks.check(
            answer.map(|block| block.words) == expected,
            "a layout, at place 0",
        );
        checks.check(
            match number {
                0 => words[35] == BEFORE,
                _ => words == [0; 36],
            },
            "its words are the block's, or 0",
        );
        checks.check(
            translator.words_needed(&record) == expected,
            "a layout, counted",
        );
        record[30..34].copy_from_slice(&3u32.to_le_bytes());
        checks.check(
            translator.words_needed(&record) == Err(expected.err().unwrap_or(fault(6, 23))),
            "a RAM of 3 bytes is told behind it",
        );
    }
}

/// Blocks in RAM: a guard behind the start, where it is due and nowhere else, and operations up to RAM's end (2026-06). RAM is 01000000 to
/// 0100ffff.
fn guards(checks: &mut Checks) {
    let addresses = [0x1122334455667788u64, 0x99aabbccddeeff00];
    let guard = [vec![6, 16, 0], addresses.map(u64::to_le_bytes).concat()].concat();
    let blocks = [
        (0x01000000, true, 0, Ok(52)),
        (0x01000010, true, 1, Ok(56)), // an address that takes two words
        (0x0100fffe, true, 1, Ok(54)), // up to RAM's end,
        (0x0100ffff, true, 1, Err((17, 96))), // and past it,
        (0x0100fffc, true, 3, Err((17, 108))), // by the third operation
        (0x0100ffff, true, 0, Ok(56)), // without one
        (0x01000000, false, 0, Err((16, 70))), // no guard in RAM, at the record's end
        (0x01000000, false, 1, Err((16, 70))), // and before an operation
        (0x02000000, true, 0, Err((16, 70))), // a guard in flash's range
        (0x00ffffff, true, 0, Err((7, 70))), // neither,
        (0x01010000, false, 0, Err((7, 70))), // at either end of RAM,
        (0x01ffffff, true, 0, Err((7, 70))), // and of flash's range
        (0x04000000, true, 1, Err((7, 70))),
    ];
    let mut translator = Translator::new();
    for (start, guarded, nops, expected) in blocks {
        let mut record = block(start, 0);
        if guarded {
            record.extend(&guard);
        }
        record.extend([5, 3, 0, 0, 2, 0].repeat(nops));
        let expected = expected.map_err(|(number, place)| fault(number, place));
        let mut words = [BEFORE; 57];
        let answer = translator.translate(&record, &mut words);
        checks.check(
            answer.map(|block| block.words) == expected,
            "a block in RAM",
        );
        checks.check(
            translator.words_needed(&record) == expected,
            "a block in RAM, counted",
        );
        checks.check(
            match answer {
                Ok(block) => {
                    let (count, body, sites) = parts(block);
                    let behind = start + 2 * nops as u32;
                    let literal = [0xddeeff00, 0x99aabbcc];
                    body == 52
                        && sites.len() == 1
                        && sites[0].target == behind
                        && words[20..22].contains(&0xf9401689)
                        && words[count - 2..count] == literal
                        && words[count..].iter().all(|w| *w == BEFORE)
                }
                Err(_) => words == [0; 57],
            },
            "its site leads to the address behind it, its last literal is the helper's address, no word beyond; or its words are 0",
        );
        if let Ok(needed) = expected {
            checks.check(
                translator.translate(&record, &mut words[..needed - 1])
                    == Err(fault(10, record.len())),
                "one word fewer is fault 10 at the record's length",
            );
        }
    }
    let mut cut = block(0x01000000, 0);
    cut.extend(&guard);
    checks.check(
        [95, 78].map(|n| translator.words_needed(&cut[..n])) == [Err(fault(1, 77)); 2],
        "a guard that is cut is fault 1 at 77",
    );
    cut[78] = 15;
    checks.check(
        translator.words_needed(&cut[..95]) == Err(fault(2, 77)),
        "a guard of 15 bytes is fault 2 at 77",
    );
    cut[76] = 2;
    checks.check(
        translator.words_needed(&cut[..78]) == Err(fault(16, 70)),
        "behind a start in flash's range a lone tag 06 is fault 16 at 70",
    );
}

/// The texts are those of the table in host/werfund.h, each its own, and a number without a row is unknown, as 0 is: it is no fault.
fn texts(checks: &mut Checks) {
    let rows: BTreeMap<u32, &str> = include_str!("../werfund.h")
        .lines()
        .filter_map(|line| {
            let (number, rest) = line.trim().strip_prefix("X(")?.split_once(", ")?;
            Some((number.parse().ok()?, rest.split('"').nth(1)?))
        })
        .collect();
    for number in (0..=64).chain([u32::MAX]) {
        let text = match rows.get(&number) {
            Some(text) if number != 0 => text,
            _ => "unknown fault",
        };
        checks.check(
            fault(number, 70).to_string() == format!("refused {number} 70: {text}"),
            "a fault says what the header's row says, or that it is unknown",
        );
    }
    let distinct: BTreeSet<&str> = rows.values().copied().collect();
    checks.check(distinct.len() == rows.len(), "no two texts are alike");
    for link in [LinkFault::OutOfReach, LinkFault::Unaligned] {
        let number = link as u32;
        checks.check(
            link.to_string() == format!("not linked {number}: {}", rows[&number]),
            "a link's fault says what the header's row says",
        );
    }
}

/// Two translators by turns, and one that serves two blocks: no call is disturbed by another.
fn interleaved(checks: &mut Checks) {
    let records = [block(0x02000000, 0), block(0x02000800, 1)];
    let fresh = [0, 1].map(|i: usize| {
        let mut words = [0; 64];
        let block = Translator::new().translate(&records[i], &mut words);
        (block, words)
    });
    let mut translators = [Translator::new(), Translator::new()];
    for turn in 0..8 {
        let (i, k) = (turn & 1, (turn >> 1) & 1);
        let mut words = [0; 64];
        let block = translators[k].translate(&records[i], &mut words);
        checks.check(
            block.is_ok() && (block, words) == fresh[i],
            "a block has its words again",
        );
    }
    checks.check(fresh[0] != fresh[1], "which are not the other's");
}

fn links(checks: &mut Checks) {
    let links = [
        (0, 4, Ok(0x14000001)),         // document 01, starred: 4 bytes ahead
        (4, 0, Ok(0x17ffffff)),         // and 4 bytes behind
        (0, 134217724, Ok(0x15ffffff)), // the last that reaches ahead,
        (134217728, 0, Ok(0x16000000)), // and behind
        (0, 134217728, Err(LinkFault::OutOfReach)), // document 01's example of 11
        (134217732, 0, Err(LinkFault::OutOfReach)), // one more behind
        (i64::MIN, i64::MAX - 3, Err(LinkFault::OutOfReach)), // the difference does not wrap
        (2, 4, Err(LinkFault::Unaligned)), // document 01's example of 12
        (4, 2, Err(LinkFault::Unaligned)), // either address
        (1, 134217728, Err(LinkFault::Unaligned)), // 12 before 11
        (-8, -4, Ok(0x14000001)),
    ];
    for (site, body, answer) in links {
        checks.check(link(site, body) == answer, "a link");
    }
}

fn main() -> ExitCode {
    let args: Vec<String> = std::env::args().collect();
    let path = match args.get(1) {
        Some(path) => path,
        None => {
            eprintln!("usage: tests CASES [COUNT]");
            return ExitCode::from(2);
        }
    };
    let mut checks = Checks::default();
    cases(
        path,
        args.get(2)
            .map_or(usize::MAX, |n| n.parse().expect("a number")),
        &mut checks,
    );
    boundary(&mut checks);
    two_sites(&mut checks);
    groups(&mut checks);
    forms(&mut checks);
    layouts(&mut checks);
    guards(&mut checks);
    texts(&mut checks);
    interleaved(&mut checks);
    links(&mut checks);
    println!("checks {}\nfailed {}", checks.made, checks.failed);
    ExitCode::from((checks.failed != 0) as u8)
}
