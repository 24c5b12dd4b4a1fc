//! The fence page.

use crate::bytes::{fits, length, part_mut, put_u32, put_u64};
use crate::registers::VERSION;

const MAGIC: u32 = u32::from_le_bytes(*b"FENC");
const PAGE: u64 = 16;

/// Writes the fence page at `gpa` if that is non-zero and all 16 bytes fit.
pub(crate) fn write_page(mem: &mut [u8], gpa: u64, completed: u64) {
    if gpa == 0 || !fits(gpa, PAGE, length(mem)) {
        return;
    }
    let page = part_mut(mem, gpa, PAGE);
    put_u32(page, 0, MAGIC);
    put_u32(page, 4, VERSION);
    put_u64(page, 8, completed);
}
