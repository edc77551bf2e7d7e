//! The calls of the static library, over slices.
use crate::answers::{Record, Refusal, ANSWER};

extern "C" {
    fn acpi_build(recipe: *const u8, recipe_len: usize, out: *mut u8, out_len: usize, place: *mut usize) -> u32;
    fn acpi_check(recipe: *const u8, recipe_len: usize, place: *mut usize) -> u32;
    fn acpi_read_out(table: *const u8, table_len: usize, out: *mut u8, out_len: usize, place: *mut usize) -> u32;
    fn acpi_accept(table: *const u8, table_len: usize, mask: u32, place: *mut usize) -> u32;
    fn acpi_read(
        table: *const u8,
        table_len: usize,
        mask: u32,
        n: usize,
        answer: *mut u64,
        answer_len: usize,
        place: *mut usize,
    ) -> u32;
    fn acpi_first_place(table: *const u8, table_len: usize) -> usize;
    fn acpi_record_at(table: *const u8, table_len: usize, mask: u32, place: usize, answer: *mut u64, answer_len: usize);
    fn acpi_sum(bytes: *const u8, bytes_len: usize, high: *mut u64) -> u64;
}

/// The mask of all rows.
pub const EVERY: u32 = u32::MAX;

/// The longest table.
pub const LIMIT: usize = 67_108_864;

fn answer(number: u32, place: usize) -> Result<usize, Refusal> {
    match number {
        0 => Ok(place),
        _ => Err(Refusal { number, place }),
    }
}

// In each call below the pointers and lengths are those of slices that live through it, and what is written is lent as
// `&mut`, so it overlaps nothing else: this is all that the library asks of its caller.

/// Builds the table of a recipe into `out`: its length, or refusal 1 to 12, which leaves `out` as it was.
pub fn build(recipe: &[u8], out: &mut [u8]) -> Result<usize, Refusal> {
    let mut place = 0;
    let number = unsafe { acpi_build(recipe.as_ptr(), recipe.len(), out.as_mut_ptr(), out.len(), &mut place) };
    answer(number, place)
}

/// The length of a recipe's table, or refusal 1 to 8 or 10 to 12: what [`build`] answers with room for it.
pub fn check(recipe: &[u8]) -> Result<usize, Refusal> {
    let mut place = 0;
    let number = unsafe { acpi_check(recipe.as_ptr(), recipe.len(), &mut place) };
    answer(number, place)
}

/// Writes the recipe of a table, in its normal form, into `out`: its length, or refusal 20 to 27 and 29 to 32.
pub fn read_out(table: &[u8], out: &mut [u8]) -> Result<usize, Refusal> {
    let mut place = 0;
    let number = unsafe { acpi_read_out(table.as_ptr(), table.len(), out.as_mut_ptr(), out.len(), &mut place) };
    answer(number, place)
}

/// The number of a table's records, or refusal 20 to 27, by the rows that the mask has.
pub fn accept(table: &[u8], mask: u32) -> Result<usize, Refusal> {
    let mut place = 0;
    let number = unsafe { acpi_accept(table.as_ptr(), table.len(), mask, &mut place) };
    answer(number, place)
}

/// Record number `n` of a table, counted from 0, by the rows that the mask has; or refusal 20 to 28.
pub fn read(table: &[u8], mask: u32, n: usize) -> Result<Record<'_>, Refusal> {
    let mut place = 0;
    let mut numbers = [0; ANSWER];
    let number = unsafe { acpi_read(table.as_ptr(), table.len(), mask, n, numbers.as_mut_ptr(), ANSWER, &mut place) };
    let count = answer(number, place)?;
    Ok(Record::of(table, count, &numbers))
}

/// The plain sum of all the bytes, the checksum's too. A table's checksum is right where the sum of its own bytes, as many as its
/// length says, is a multiple of 256.
pub fn sum(bytes: &[u8]) -> u128 {
    let mut high = 0;
    let low = unsafe { acpi_sum(bytes.as_ptr(), bytes.len(), &mut high) };
    u128::from(high) << 64 | u128::from(low)
}

/// The records of a table, one after the other: it is judged once.
pub fn records(table: &[u8], mask: u32) -> Result<Records<'_>, Refusal> {
    let count = accept(table, mask)?;
    let place = unsafe { acpi_first_place(table.as_ptr(), table.len()) };
    Ok(Records { table, mask, count, left: count, place })
}

/// See [`records`].
#[derive(Clone, Debug)]
pub struct Records<'a> {
    table: &'a [u8],
    mask: u32,
    count: usize,
    left: usize,
    place: usize,
}

impl<'a> Iterator for Records<'a> {
    type Item = Record<'a>;

    fn next(&mut self) -> Option<Record<'a>> {
        self.left = self.left.checked_sub(1)?;
        let mut numbers = [0; ANSWER];
        let table = self.table;
        unsafe { acpi_record_at(table.as_ptr(), table.len(), self.mask, self.place, numbers.as_mut_ptr(), ANSWER) };
        let record = Record::of(table, self.count, &numbers);
        self.place += record.length;
        Some(record)
    }

    fn size_hint(&self) -> (usize, Option<usize>) {
        (self.left, Some(self.left))
    }
}

impl ExactSizeIterator for Records<'_> {}
