//! The calls of the C interface, and this crate's answer to each.
use super::certificates::checked;
use crate::encode::{blocks_of, Encoding};
use crate::model::{Model, GROUPS};
use crate::refusal::{CONTRADICTION, SHORT_BUFFER};
use crate::settle::{settle, Settled};
use crate::sheet::{read, write};
use crate::words::{from_words, to_words, WORDS};
use crate::{answer, close, combine, fill, listing};

/// What answers the calls: the proved code, this crate, or a broken copy in a test.
pub trait Calls {
    /// refusal * 65536 + line
    fn read(&self, sheet: &[u8]) -> u64;
    /// refusal * 65536 + passes; the table gets fixed, possible, low, high of each group, and 24 is a table without room for them
    fn settle(&self, sheet: &[u8], table: &mut [u64]) -> u64;
    /// refusal * 2^32 + length
    fn block(&self, sheet: &[u8], block: u32, buffer: &mut [u8]) -> u64;
    /// blocks from one on: next * 2^32 + length, where next is never 0; or the refusal
    fn blocks(&self, sheet: &[u8], block: u32, buffer: &mut [u8]) -> u64;
    /// refusal * 65536 + the number of the last block
    fn block_count(&self, sheet: &[u8]) -> u64;
    /// refusal * 2 + 1 where the reading is closed afterwards
    fn line(&self, closed: u32, line: &[u8], marks: &mut [u8]) -> u32;
    /// the refusal; the table gets 256 groups, and 24 is a table without room for them
    fn close(&self, sheet: &[u8], closed: u32, marks: &[u8], groups: &mut [u64]) -> u32;
    /// a solver's whole output: refusal * 65536 + line of the sheet; the table gets 256 groups, and 24 is a table without room for them
    fn answer(&self, sheet: &[u8], output: &[u8], groups: &mut [u64]) -> u64;
    /// the refusal; fewer words than groups are no draw, 30
    fn fill(&self, sheet: &[u8], groups: &[u64], marks: &mut [u8]) -> u32;
    /// settling, a block, closing and filling, of a model as words in place of a settled sheet
    fn settle_model(&self, words: &[u64], table: &mut [u64]) -> u64;
    fn block_model(&self, words: &[u64], block: u32, buffer: &mut [u8]) -> u64;
    fn close_model(&self, words: &[u64], closed: u32, marks: &[u8], groups: &mut [u64]) -> u32;
    fn fill_model(&self, words: &[u64], groups: &[u64], marks: &mut [u8]) -> u32;
    /// the number of a model's last block, settled or not; 0 for a model out of range
    fn block_count_model(&self, words: &[u64]) -> u32;
    /// the sheet of a model as words: refusal * 2^32 + length
    fn write_model(&self, words: &[u64], buffer: &mut [u8]) -> u64;
    /// the sheet of two combined: refusal * 2^32 + length
    fn combine(&self, first: &[u8], second: &[u8], buffer: &mut [u8]) -> u64;
    /// the refusal; the words get the combined model, and 24 is words without room for it
    fn combine_model(&self, first: &[u64], second: &[u64], words: &mut [u64]) -> u32;
    /// a certificate of a sheet: 0 not certified, + 4 * reason + 65536 * line; 1 sheet refused, + 4 * refusal + 65536 * line; 2 settled out; 3 certified
    fn certify(&self, sheet: &[u8], certificate: &[u8], lent: &mut Lent) -> u64;
}

/// The memory that checking a certificate wants.
pub struct Lent {
    pub text: Vec<u8>,
    pub store: Vec<u32>,
    pub index: Vec<u32>,
    pub marks: Vec<u32>,
}

pub struct Counterpart;

/// The settled sheet, or the refusal of the reader or of settling.
pub fn settled(sheet: &[u8]) -> Result<Settled, u32> {
    let model = read(sheet).map_err(|refused| refused.number)?;
    settle(model).ok_or(CONTRADICTION)
}

/// A model's words taken as settled, or refusal 20 or 22.
pub fn given(words: &[u64]) -> Result<Settled, u32> {
    from_words(words).and_then(Settled::given)
}

fn settle_number(settled: Result<Settled, u32>, table: &mut [u64]) -> Result<u64, u32> {
    let settled = settled?;
    let groups = &settled.model().groups;
    let table = table.get_mut(..4 * groups.len()).ok_or(SHORT_BUFFER)?;
    for (row, group) in table.chunks_exact_mut(4).zip(groups) {
        row.copy_from_slice(&[group.fixed, group.possible, group.low.into(), group.high.into()]);
    }
    Ok(settled.passes().into())
}

fn block_number(settled: Result<Settled, u32>, block: u32, buffer: &mut [u8]) -> u64 {
    match settled.and_then(|settled| listing::write_block(&Encoding::of(&settled), block as usize, buffer)) {
        Ok(length) => length as u64,
        Err(number) => u64::from(number) << 32,
    }
}

fn write_number(model: Result<Model, u32>, buffer: &mut [u8]) -> Result<u64, u32> {
    let sheet = write(&model?);
    buffer.get_mut(..sheet.len()).ok_or(SHORT_BUFFER)?.copy_from_slice(&sheet);
    Ok(sheet.len() as u64)
}

/// The combined model of two sheets, or the refusal of the first, of the second or of both together.
pub fn combined(first: &[u8], second: &[u8]) -> Result<Model, u32> {
    let [first, second] = [first, second].map(|sheet| read(sheet).map_err(|refused| refused.number));
    combine::combine(&first?, &second?)
}

/// The combined model of two models' words, or refusal 20, 31, 32 or 33.
pub fn combined_words(first: &[u64], second: &[u64]) -> Result<Model, u32> {
    combine::combine(&from_words(first)?, &from_words(second)?)
}

fn combine_words(model: Result<Model, u32>, words: &mut [u64]) -> Result<(), u32> {
    let model = model?;
    words.get_mut(..WORDS).ok_or(SHORT_BUFFER)?.copy_from_slice(&to_words(&model, 0));
    Ok(())
}

fn close_number(settled: Result<Settled, u32>, closed: u32, marks: &[u8], groups: &mut [u64]) -> Result<(), u32> {
    let drawn = close::close(&Encoding::of(&settled?), closed != 0, marks)?;
    put_groups(&drawn, groups)
}

fn put_groups(drawn: &[u64], groups: &mut [u64]) -> Result<(), u32> {
    let table = groups.get_mut(..GROUPS as usize).ok_or(SHORT_BUFFER)?;
    table.fill(0);
    table[..drawn.len()].copy_from_slice(drawn);
    Ok(())
}

/// Groups where the sheet is accepted and settles, and the lines that are not refused say a satisfying assignment and a closing 0; else the refusal and its line.
fn answer_number(sheet: &[u8], output: &[u8], groups: &mut [u64]) -> Result<(), (u32, u32)> {
    let model = read(sheet).map_err(|refused| (refused.number, refused.line))?;
    let settled = settle(model).ok_or((CONTRADICTION, 0))?;
    let encoding = Encoding::of(&settled);
    let (closed, marks) = answer::read_lines(output, encoding.variables, &mut |_, _| {});
    let drawn = close::close(&encoding, closed, &marks).map_err(|number| (number, 0))?;
    put_groups(&drawn, groups).map_err(|number| (number, 0))
}

fn fill_number(settled: Result<Settled, u32>, groups: &[u64], marks: &mut [u8]) -> u32 {
    settled.and_then(|settled| fill::fill(&Encoding::of(&settled), groups, marks)).err().unwrap_or(0)
}

impl Calls for Counterpart {
    fn read(&self, sheet: &[u8]) -> u64 {
        match read(sheet) {
            Ok(_) => 0,
            Err(refused) => u64::from(refused.number) << 16 | u64::from(refused.line),
        }
    }

    fn settle(&self, sheet: &[u8], table: &mut [u64]) -> u64 {
        settle_number(settled(sheet), table).unwrap_or_else(|number| u64::from(number) << 16)
    }

    fn block(&self, sheet: &[u8], block: u32, buffer: &mut [u8]) -> u64 {
        block_number(settled(sheet), block, buffer)
    }

    fn blocks(&self, sheet: &[u8], block: u32, buffer: &mut [u8]) -> u64 {
        match settled(sheet).and_then(|settled| listing::write_blocks(&Encoding::of(&settled), block as usize, buffer)) {
            Ok((next, length)) => (next as u64) << 32 | length as u64,
            Err(number) => number.into(),
        }
    }

    fn block_count(&self, sheet: &[u8]) -> u64 {
        match settled(sheet) {
            Ok(settled) => Encoding::of(&settled).blocks() as u64,
            Err(number) => u64::from(number) << 16,
        }
    }

    fn line(&self, closed: u32, line: &[u8], marks: &mut [u8]) -> u32 {
        let mut closed = closed != 0;
        let refusal = answer::read_line(&mut closed, line, marks).err().unwrap_or(0);
        refusal * 2 + u32::from(closed)
    }

    fn close(&self, sheet: &[u8], closed: u32, marks: &[u8], groups: &mut [u64]) -> u32 {
        close_number(settled(sheet), closed, marks, groups).err().unwrap_or(0)
    }

    fn answer(&self, sheet: &[u8], output: &[u8], groups: &mut [u64]) -> u64 {
        match answer_number(sheet, output, groups) {
            Ok(()) => 0,
            Err((number, line)) => u64::from(number) << 16 | u64::from(line),
        }
    }

    fn fill(&self, sheet: &[u8], groups: &[u64], marks: &mut [u8]) -> u32 {
        fill_number(settled(sheet), groups, marks)
    }

    fn settle_model(&self, words: &[u64], table: &mut [u64]) -> u64 {
        let settled = from_words(words).and_then(|model| settle(model).ok_or(CONTRADICTION));
        settle_number(settled, table).unwrap_or_else(|number| u64::from(number) << 16)
    }

    fn block_model(&self, words: &[u64], block: u32, buffer: &mut [u8]) -> u64 {
        block_number(given(words), block, buffer)
    }

    fn close_model(&self, words: &[u64], closed: u32, marks: &[u8], groups: &mut [u64]) -> u32 {
        close_number(given(words), closed, marks, groups).err().unwrap_or(0)
    }

    fn fill_model(&self, words: &[u64], groups: &[u64], marks: &mut [u8]) -> u32 {
        fill_number(given(words), groups, marks)
    }

    fn block_count_model(&self, words: &[u64]) -> u32 {
        from_words(words).map_or(0, |model| blocks_of(&model) as u32)
    }

    fn write_model(&self, words: &[u64], buffer: &mut [u8]) -> u64 {
        write_number(from_words(words), buffer).unwrap_or_else(|number| u64::from(number) << 32)
    }

    fn combine(&self, first: &[u8], second: &[u8], buffer: &mut [u8]) -> u64 {
        write_number(combined(first, second), buffer).unwrap_or_else(|number| u64::from(number) << 32)
    }

    fn combine_model(&self, first: &[u64], second: &[u64], words: &mut [u64]) -> u32 {
        combine_words(combined_words(first, second), words).err().unwrap_or(0)
    }

    /// The reason, and its line, of a certificate that fails are the other side's to say.
    fn certify(&self, sheet: &[u8], certificate: &[u8], lent: &mut Lent) -> u64 {
        let model = match read(sheet) {
            Ok(model) => model,
            Err(refused) => return 1 + 4 * u64::from(refused.number) + 65_536 * u64::from(refused.line),
        };
        match settle(model) {
            None => 2,
            Some(settled) if checked(&Encoding::of(&settled), certificate, lent).certified => 3,
            Some(_) => 4,
        }
    }
}
