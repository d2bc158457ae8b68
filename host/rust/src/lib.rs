//! The translator of block records to A64 code, for a host in Rust.
//!
//! What [`Translator::translate`], [`Translator::words_needed`] and [`link`] answer is proved in crates/werfund, for every record and every length.
//! This wrapper lends them slices: that no pointer is null, that lengths are true and that nothing overlaps is Rust's to see to.
//!
//! Nothing is kept between calls, so that translators and threads do not disturb each other. How much stack a call needs is in docs/SPEED.md.
//!
//! ```
//! // a record that ends before its first field, and three lent words
//! let mut words = [7; 3];
//! let fault = werfund::Translator::new().translate(&[], &mut words).unwrap_err();
//! assert_eq!((fault.number, fault.place), (1, 0));
//! assert_eq!(words, [0; 3]);
//! ```
use std::error::Error;
use std::fmt;

/// The library's functions, as host/werfund.h declares them.
mod library {
    extern "C" {
        pub fn werfund_translate(
            record: *const u8,
            record_bytes: usize,
            words: *mut u32,
            words_lent: usize,
            table: *mut u64,
            answer: *mut u64,
            answer_cells: usize,
        ) -> u32;
        pub fn werfund_words_needed(
            record: *const u8,
            record_bytes: usize,
            table: *mut u64,
            answer: *mut u64,
            answer_cells: usize,
        ) -> u32;
        pub fn werfund_link(site: i64, body: i64) -> u64;
    }
}

/// Cells of the table.
const TABLE: usize = 6152;

/// The working room of a translation or a count, 49,216 bytes. It may serve any number of records, one after the other.
pub struct Translator {
    table: Box<[u64; TABLE]>,
}

/// A chain site: the position of its branch among the block's words, and the guest address that it leads to.
#[derive(Clone, Copy, Debug, Default, PartialEq, Eq)]
pub struct Site {
    pub at: usize,
    pub target: u32,
}

/// An accepted record's block.
#[derive(Clone, Copy, Debug, PartialEq, Eq)]
pub struct Block {
    /// How many of the lent words are the block's, from the first on. Those beyond are untouched.
    pub words: usize,
    /// Where chained blocks enter, in bytes behind the first word.
    pub body: usize,
    sites: [Site; 2],
    count: usize,
}

impl Block {
    /// The chain sites, at most two, each listed once, by rising word position: `at` rises, and is below `words`. Of two the first leads to
    /// the address behind the block.
    pub fn sites(&self) -> &[Site] {
        &self.sites[..self.count]
    }
}

/// What a fault's number says: the table `WERFUND_FAULTS` of host/werfund.h behind 0, in its order and with its texts.
fn text(number: u32) -> &'static str {
    match number {
        1 => "a field's header or payload is cut, or the record ends before the field with tag 04",
        2 => "a tag that is not due, or a length that is not the field's",
        8 => "a 33rd operation",
        9 => "an operation behind a jump",
        3 => "an operation's kind above 49",
        4 => "a flag or an operand out of range, or a group that moves more bytes than RAM or XIP has",
        5 => "an offset, or regs plus 60, of 16384 or more",
        14 => "an offset that is no multiple of 4",
        15 => "two places of the processor record that overlap",
        6 => "a region shorter than 4, with a base that is no multiple of 4, or that ends above 2^32",
        7 => "a block's address neither in flash's range, 02000000 to 03ffffff, nor inside RAM",
        16 => "tag 06 next behind a start in flash's range, or not next behind one in RAM",
        17 => "an operation of a block in RAM that reaches past RAM's end",
        10 => "more words are needed than lent; the record has no other fault",
        11 => "a link's body out of reach",
        12 => "a link's address that is no multiple of 4",
        _ => "unknown fault",
    }
}

/// Why a record is refused: the fault's number, as documents 01 and 02 have it, and the place, an offset in the record. All words that were
/// lent are then 0. `Display` says what the number means.
///
/// ```
/// let fault = werfund::Fault { number: 14, place: 0 };
/// assert_eq!(fault.to_string(), "refused 14 0: an offset that is no multiple of 4");
/// ```
#[derive(Clone, Copy, Debug, PartialEq, Eq)]
pub struct Fault {
    pub number: u32,
    pub place: usize,
}

impl fmt::Display for Fault {
    fn fmt(&self, f: &mut fmt::Formatter) -> fmt::Result {
        let Fault { number, place } = *self;
        write!(f, "refused {number} {place}: {}", text(number))
    }
}

impl Error for Fault {}

/// Why a link is refused.
#[derive(Clone, Copy, Debug, PartialEq, Eq)]
pub enum LinkFault {
    /// The body is more than 33,554,431 words ahead or 33,554,432 behind.
    OutOfReach = 11,
    /// An address is no multiple of 4.
    Unaligned = 12,
}

impl fmt::Display for LinkFault {
    fn fmt(&self, f: &mut fmt::Formatter) -> fmt::Result {
        let number = *self as u32;
        write!(f, "not linked {number}: {}", text(number))
    }
}

impl Error for LinkFault {}

impl Translator {
    pub fn new() -> Translator {
        let table = vec![0; TABLE].into_boxed_slice();
        Translator {
            table: table.try_into().expect("it has as many cells"),
        }
    }

    /// The words of an accepted record's block, in `words`; or the first fault, and every lent word 0. 28,166 words are enough for every
    /// block; [`words_needed`](Translator::words_needed) says how many it takes.
    ///
    /// ```
    /// # fn number(n: u32) -> [u8; 4] { n.to_le_bytes() }
    /// # let field = |tag: u8, payload: &[u8]| [&[tag, payload.len() as u8, 0], payload].concat();
    /// // document 01's block of no operations
    /// let record = [
    ///     field(1, &[0, 64, 68, 72, 76].map(number).concat()),
    ///     field(2, &[&[0x01000000, 0x00010000, 0x02000000, 0x00100000].map(number).concat()[..], &[0]].concat()),
    ///     field(3, &[0; 24]),
    ///     field(4, &number(0x02000000)),
    /// ]
    /// .concat();
    /// let mut words = [7; 40];
    /// let block = werfund::Translator::new().translate(&record, &mut words)?;
    /// assert_eq!((block.words, block.body), (35, 52));
    /// assert_eq!(block.sites(), [werfund::Site { at: 21, target: 0x02000000 }]);
    /// assert_eq!(words[34..], [0xd65f03c0, 7, 7, 7, 7, 7]);
    /// # Ok::<(), werfund::Fault>(())
    /// ```
    pub fn translate(&mut self, record: &[u8], words: &mut [u32]) -> Result<Block, Fault> {
        let mut answer = [0; 8];
        // SAFETY: each pointer and length is that of a slice or an array, so it is not null, is aligned and is true; the four are apart, since
        // three of them are borrowed alone and the record is borrowed beside them. The library writes inside them and keeps none.
        let number = unsafe {
            library::werfund_translate(
                record.as_ptr(),
                record.len(),
                words.as_mut_ptr(),
                words.len(),
                self.table.as_mut_ptr(),
                answer.as_mut_ptr(),
                answer.len(),
            )
        };
        let [place, words, body, count, at0, target0, at1, target1] = answer;
        if number != 0 {
            return Err(Fault {
                number,
                place: place as usize,
            });
        }
        let site = |at: u64, target: u64| Site {
            at: at as usize,
            target: target as u32,
        };
        Ok(Block {
            words: words as usize,
            body: body as usize,
            sites: [site(at0, target0), site(at1, target1)],
            count: count as usize,
        })
    }

    /// How many words a record's block takes, before any are lent: lent that many or more, [`translate`](Translator::translate) accepts the
    /// record, and lent fewer it answers fault 10. Or the first fault of reading, never 10, with which `translate` refuses the record
    /// whatever is lent.
    ///
    /// ```
    /// # fn number(n: u32) -> [u8; 4] { n.to_le_bytes() }
    /// # let field = |tag: u8, payload: &[u8]| [&[tag, payload.len() as u8, 0], payload].concat();
    /// # let record = [
    /// #     field(1, &[0, 64, 68, 72, 76].map(number).concat()),
    /// #     field(2, &[&[0x01000000, 0x00010000, 0x02000000, 0x00100000].map(number).concat()[..], &[0]].concat()),
    /// #     field(3, &[0; 24]),
    /// #     field(4, &number(0x02000000)),
    /// # ]
    /// # .concat();
    /// // `record` is document 01's block of no operations
    /// let mut translator = werfund::Translator::new();
    /// let mut words = vec![0; translator.words_needed(&record)?];
    /// assert_eq!(words.len(), 35);
    /// assert_eq!(translator.translate(&record, &mut words)?.words, 35);
    /// assert_eq!(translator.translate(&record, &mut words[..34]).unwrap_err().number, 10);
    /// # Ok::<(), werfund::Fault>(())
    /// ```
    pub fn words_needed(&mut self, record: &[u8]) -> Result<usize, Fault> {
        let mut answer = [0; 2];
        // SAFETY: as of `translate`, without lent words.
        let number = unsafe {
            library::werfund_words_needed(
                record.as_ptr(),
                record.len(),
                self.table.as_mut_ptr(),
                answer.as_mut_ptr(),
                answer.len(),
            )
        };
        let [place, words] = answer;
        if number != 0 {
            return Err(Fault {
                number,
                place: place as usize,
            });
        }
        Ok(words as usize)
    }
}

impl Default for Translator {
    fn default() -> Translator {
        Translator::new()
    }
}

/// The branch that the host writes at a chain site to link it with a body, from the addresses of both. The write and the instruction cache are
/// the host's.
///
/// ```
/// use werfund::{link, LinkFault};
/// assert_eq!(link(0x1000, 0x1004), Ok(0x14000001));
/// assert_eq!(link(0x1004, 0x1000), Ok(0x17ffffff));
/// assert_eq!(link(0, 1 << 27), Err(LinkFault::OutOfReach));
/// assert_eq!(link(2, 4), Err(LinkFault::Unaligned));
/// ```
pub fn link(site: i64, body: i64) -> Result<u32, LinkFault> {
    // SAFETY: it takes numbers, and touches no memory.
    let linked = unsafe { library::werfund_link(site, body) };
    match linked >> 32 {
        0 => Ok(linked as u32),
        11 => Err(LinkFault::OutOfReach),
        12 => Err(LinkFault::Unaligned),
        number => unreachable!("link answers 0, 11 or 12, not {number}"),
    }
}
