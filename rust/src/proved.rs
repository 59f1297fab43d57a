//! The proved code, through the static library of the crate `exports`: the only unsafe code here.
use crate::compare::calls::{Calls, Lent};

extern "C" {
    fn draw_read(sheet: *const u8, sheet_len: usize) -> u64;
    fn draw_settle(sheet: *const u8, sheet_len: usize, table: *mut u64, table_len: usize) -> u64;
    fn draw_block(sheet: *const u8, sheet_len: usize, block: u32, buffer: *mut u8, buffer_len: usize) -> u64;
    fn draw_blocks(sheet: *const u8, sheet_len: usize, block: u32, buffer: *mut u8, buffer_len: usize) -> u64;
    fn draw_block_count(sheet: *const u8, sheet_len: usize) -> u64;
    fn draw_line(closed: u32, line: *const u8, line_len: usize, marks: *mut u8, marks_len: usize) -> u32;
    fn draw_close(sheet: *const u8, sheet_len: usize, closed: u32, marks: *const u8, marks_len: usize, groups: *mut u64, groups_len: usize) -> u32;
    fn draw_answer(sheet: *const u8, sheet_len: usize, output: *const u8, output_len: usize, groups: *mut u64, groups_len: usize) -> u64;
    fn draw_fill(sheet: *const u8, sheet_len: usize, groups: *const u64, groups_len: usize, marks: *mut u8, marks_len: usize) -> u32;
    fn draw_settle_model(words: *const u64, words_len: usize, table: *mut u64, table_len: usize) -> u64;
    fn draw_block_model(words: *const u64, words_len: usize, block: u32, buffer: *mut u8, buffer_len: usize) -> u64;
    fn draw_close_model(words: *const u64, words_len: usize, closed: u32, marks: *const u8, marks_len: usize, groups: *mut u64, groups_len: usize) -> u32;
    fn draw_fill_model(words: *const u64, words_len: usize, groups: *const u64, groups_len: usize, marks: *mut u8, marks_len: usize) -> u32;
    fn draw_block_count_model(words: *const u64, words_len: usize) -> u32;
    fn draw_write_model(words: *const u64, words_len: usize, buffer: *mut u8, buffer_len: usize) -> u64;
    fn draw_combine(first: *const u8, first_len: usize, second: *const u8, second_len: usize, buffer: *mut u8, buffer_len: usize) -> u64;
    fn draw_combine_model(first: *const u64, first_len: usize, second: *const u64, second_len: usize, words: *mut u64, words_len: usize) -> u32;
    fn draw_certify(
        sheet: *const u8,
        sheet_len: usize,
        certificate: *const u8,
        certificate_len: usize,
        text: *mut u8,
        text_len: usize,
        store: *mut u32,
        store_len: usize,
        index: *mut u32,
        index_len: usize,
        marks: *mut u32,
        marks_len: usize,
    ) -> u64;
}

pub struct Proved;

// Each function asks nothing of its caller but slices that are slices.
impl Calls for Proved {
    fn read(&self, sheet: &[u8]) -> u64 {
        unsafe { draw_read(sheet.as_ptr(), sheet.len()) }
    }

    fn settle(&self, sheet: &[u8], table: &mut [u64]) -> u64 {
        unsafe { draw_settle(sheet.as_ptr(), sheet.len(), table.as_mut_ptr(), table.len()) }
    }

    fn block(&self, sheet: &[u8], block: u32, buffer: &mut [u8]) -> u64 {
        unsafe { draw_block(sheet.as_ptr(), sheet.len(), block, buffer.as_mut_ptr(), buffer.len()) }
    }

    fn blocks(&self, sheet: &[u8], block: u32, buffer: &mut [u8]) -> u64 {
        unsafe { draw_blocks(sheet.as_ptr(), sheet.len(), block, buffer.as_mut_ptr(), buffer.len()) }
    }

    fn block_count(&self, sheet: &[u8]) -> u64 {
        unsafe { draw_block_count(sheet.as_ptr(), sheet.len()) }
    }

    fn line(&self, closed: u32, line: &[u8], marks: &mut [u8]) -> u32 {
        unsafe { draw_line(closed, line.as_ptr(), line.len(), marks.as_mut_ptr(), marks.len()) }
    }

    fn close(&self, sheet: &[u8], closed: u32, marks: &[u8], groups: &mut [u64]) -> u32 {
        unsafe { draw_close(sheet.as_ptr(), sheet.len(), closed, marks.as_ptr(), marks.len(), groups.as_mut_ptr(), groups.len()) }
    }

    fn answer(&self, sheet: &[u8], output: &[u8], groups: &mut [u64]) -> u64 {
        unsafe { draw_answer(sheet.as_ptr(), sheet.len(), output.as_ptr(), output.len(), groups.as_mut_ptr(), groups.len()) }
    }

    fn fill(&self, sheet: &[u8], groups: &[u64], marks: &mut [u8]) -> u32 {
        unsafe { draw_fill(sheet.as_ptr(), sheet.len(), groups.as_ptr(), groups.len(), marks.as_mut_ptr(), marks.len()) }
    }

    fn settle_model(&self, words: &[u64], table: &mut [u64]) -> u64 {
        unsafe { draw_settle_model(words.as_ptr(), words.len(), table.as_mut_ptr(), table.len()) }
    }

    fn block_model(&self, words: &[u64], block: u32, buffer: &mut [u8]) -> u64 {
        unsafe { draw_block_model(words.as_ptr(), words.len(), block, buffer.as_mut_ptr(), buffer.len()) }
    }

    fn close_model(&self, words: &[u64], closed: u32, marks: &[u8], groups: &mut [u64]) -> u32 {
        unsafe { draw_close_model(words.as_ptr(), words.len(), closed, marks.as_ptr(), marks.len(), groups.as_mut_ptr(), groups.len()) }
    }

    fn fill_model(&self, words: &[u64], groups: &[u64], marks: &mut [u8]) -> u32 {
        unsafe { draw_fill_model(words.as_ptr(), words.len(), groups.as_ptr(), groups.len(), marks.as_mut_ptr(), marks.len()) }
    }

    fn block_count_model(&self, words: &[u64]) -> u32 {
        unsafe { draw_block_count_model(words.as_ptr(), words.len()) }
    }

    fn write_model(&self, words: &[u64], buffer: &mut [u8]) -> u64 {
        unsafe { draw_write_model(words.as_ptr(), words.len(), buffer.as_mut_ptr(), buffer.len()) }
    }

    fn combine(&self, first: &[u8], second: &[u8], buffer: &mut [u8]) -> u64 {
        unsafe { draw_combine(first.as_ptr(), first.len(), second.as_ptr(), second.len(), buffer.as_mut_ptr(), buffer.len()) }
    }

    fn combine_model(&self, first: &[u64], second: &[u64], words: &mut [u64]) -> u32 {
        unsafe { draw_combine_model(first.as_ptr(), first.len(), second.as_ptr(), second.len(), words.as_mut_ptr(), words.len()) }
    }

    fn certify(&self, sheet: &[u8], certificate: &[u8], lent: &mut Lent) -> u64 {
        let Lent { text, store, index, marks } = lent;
        unsafe {
            draw_certify(
                sheet.as_ptr(),
                sheet.len(),
                certificate.as_ptr(),
                certificate.len(),
                text.as_mut_ptr(),
                text.len(),
                store.as_mut_ptr(),
                store.len(),
                index.as_mut_ptr(),
                index.len(),
                marks.as_mut_ptr(),
                marks.len(),
            )
        }
    }
}
