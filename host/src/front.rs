//! The C boundary, and the only module with `unsafe`: the functions of `libzelezmut.a`, each behind a safe one.
//!
//! Why the safe ones are safe. Of every function of the library it is proved, whatever numbers stand in the state, that it
//! returns and stays within what it is lent; it keeps no pointer and has no state of its own. What it needs in return is that
//! arrays have their lengths, that a slice's pointer and length belong together, and that nothing lent for writing is lent
//! twice. Arrays go in by reference, so their types give the first and the last; slices go in by what they say of themselves.
//!
//! That the library linked is the one of these declarations is asked once, before the first call: it gives the number of its layout.
#![allow(unsafe_code)]

use crate::saved::Form;
use crate::state::{Entries, Records, Resources, State, Tokens, TotalsWords, Words, LAYOUT};
use std::alloc::{alloc_zeroed, handle_alloc_error, Layout};
use std::mem::MaybeUninit;
use std::sync::atomic::{AtomicBool, Ordering};

pub(crate) mod difference;

/// The five words of a record: kind, handle and id, of 32 bits, address and length. Zeros beside a refusal.
pub(crate) type Said = [u64; 5];

/// What a call that runs says: its answer, the number of how it ended, and the units spent.
pub(crate) type Ran = (u32, u32, u16);

mod library {
    use super::{Entries, MaybeUninit, Records, Resources, Said, Tokens, TotalsWords, Words};

    // The calls of 64-bit Linux on x86-64, whatever "C" means where this is built: the library has no other code.
    extern "sysv64" {
        /// The number of the library's layout.
        pub fn zelezmut_layout() -> u64;
        pub fn zelezmut_packed_size(
            format: u32,
            width: u32,
            height: u32,
            mips: u32,
            layers: u32,
            pitch: u32,
        ) -> u64;
        pub fn zelezmut_table_error(table: *const u8, len: usize, memory: u64) -> u32;
        pub fn zelezmut_table_place(table: *const u8, len: usize, memory: u64) -> u32;
        pub fn zelezmut_make(words: &mut Words, memory: u64);
        pub fn zelezmut_write(words: &mut Words, offset: u32, value: u32) -> u32;
        /// The value, and 2^32 times the answer.
        pub fn zelezmut_read(words: &Words, offset: u32) -> u64;
        /// The answer, 2^8 times how it ended, and 2^16 times the units: `ran` takes it apart.
        pub fn zelezmut_run(
            words: &mut Words,
            entries: &mut Entries,
            first: &mut Resources,
            second: &mut Resources,
            first_tokens: &mut Tokens,
            second_tokens: &mut Tokens,
            records: &mut Records,
            mem: *mut u8,
            len: usize,
            allowance: u16,
        ) -> u64;
        pub fn zelezmut_record(
            words: &Words,
            records: &Records,
            i: u32,
            said: &mut MaybeUninit<Said>,
        ) -> u32;
        /// Says it as a run does.
        pub fn zelezmut_answer(
            words: &mut Words,
            entries: &mut Entries,
            first: &mut Resources,
            second: &mut Resources,
            first_tokens: &mut Tokens,
            second_tokens: &mut Tokens,
            records: &mut Records,
            mem: *mut u8,
            len: usize,
            good: u32,
            allowance: u16,
        ) -> u64;
        /// In form 1: the length written, and 2^32 times the answer.
        pub fn zelezmut_save(
            words: &Words,
            first: &Resources,
            second: &Resources,
            first_tokens: &Tokens,
            second_tokens: &Tokens,
            buffer: *mut u8,
            len: usize,
        ) -> u64;
        /// Likewise in form 2.
        pub fn zelezmut_save_form_2(
            words: &Words,
            first: &Resources,
            second: &Resources,
            first_tokens: &Tokens,
            second_tokens: &Tokens,
            buffer: *mut u8,
            len: usize,
        ) -> u64;
        /// The place that is bad, and 2^32 times the answer.
        pub fn zelezmut_load(
            words: &mut Words,
            first: &mut Resources,
            first_tokens: &mut Tokens,
            file: *const u8,
            len: usize,
        ) -> u64;
        /// The length written, and 2^32 times the answer.
        pub fn zelezmut_move(
            file: *const u8,
            file_len: usize,
            buffer: *mut u8,
            buffer_len: usize,
        ) -> u64;
        /// The length written, and 2^56 times the answer.
        pub fn zelezmut_dump(
            stream: *const u8,
            stream_len: usize,
            strict: u32,
            buffer: *mut u8,
            buffer_len: usize,
        ) -> u64;
        pub fn zelezmut_month_make(totals: &mut TotalsWords);
        /// The records are the first `count` rows.
        pub fn zelezmut_month_feed(
            totals: &mut TotalsWords,
            error: u32,
            units: u32,
            count: u32,
            records: &Records,
        ) -> u32;
        pub fn zelezmut_month_merge(totals: &mut TotalsWords, other: &TotalsWords) -> u32;
        pub fn zelezmut_month_total(totals: &TotalsWords, i: u32) -> u64;
    }
}

/// Whether the library was asked for its layout, and has the one that is declared here.
static LAYOUT_FITS: AtomicBool = AtomicBool::new(false);

/// Comes before the first call of every kind that needs no state; whoever has a state has made it by such a call.
#[inline]
fn check_layout() {
    if !LAYOUT_FITS.load(Ordering::Relaxed) {
        ask_for_layout();
    }
}

#[cold]
fn ask_for_layout() {
    // SAFETY: it takes nothing, and gives a number.
    let found = unsafe { library::zelezmut_layout() };
    assert!(
        found == LAYOUT,
        "zelezmut: the libzelezmut.a that is linked has layout {:#x}, and this crate has {:#x}: they are of different versions of \
         the project. Build the library anew, by `host/library` or ./play in the project's root, or name the folder of \
         the right one in ZELEZMUT_LIB_DIR.",
        found,
        LAYOUT
    );
    LAYOUT_FITS.store(true, Ordering::Relaxed);
}

/// A backed texture's bytes, 0 for a bad shape.
#[inline]
pub(crate) fn packed_size(
    format: u32,
    width: u32,
    height: u32,
    mips: u32,
    layers: u32,
    pitch: u32,
) -> u64 {
    check_layout();
    // SAFETY: numbers alone.
    unsafe { library::zelezmut_packed_size(format, width, height, mips, layers, pitch) }
}

/// A table's first error, 0 for none.
#[inline]
pub(crate) fn table_error(table: &[u8], memory: u64) -> u32 {
    check_layout();
    // SAFETY: the table's own pointer and length; it is only read.
    unsafe { library::zelezmut_table_error(table.as_ptr(), table.len(), memory) }
}

/// Where a table's first error is: the entry's index for 14 and 15, else 0.
#[inline]
pub(crate) fn table_place(table: &[u8], memory: u64) -> u32 {
    check_layout();
    // SAFETY: the table's own pointer and length; it is only read.
    unsafe { library::zelezmut_table_place(table.as_ptr(), table.len(), memory) }
}

/// The state of a new device for a memory of so many bytes. It is made where it stays, not copied there.
pub(crate) fn make(memory: u64) -> Box<State> {
    check_layout();
    let layout = Layout::new::<State>();
    // SAFETY: the layout has a size, the global allocator gave the place for it, and zeros are words.
    let mut state = unsafe {
        let place = alloc_zeroed(layout).cast::<State>();
        if place.is_null() {
            handle_alloc_error(layout);
        }
        Box::from_raw(place)
    };
    // SAFETY: a reference and a number.
    unsafe { library::zelezmut_make(&mut state.words, memory) };
    state
}

/// The call's answer.
#[inline]
pub(crate) fn write(state: &mut State, offset: u32, value: u32) -> u32 {
    // SAFETY: a reference and numbers.
    unsafe { library::zelezmut_write(&mut state.words, offset, value) }
}

/// An answer in the high half, and what stands beside it in the low one.
#[inline]
fn halves(said: u64) -> (u32, u32) {
    ((said >> 32) as u32, said as u32)
}

/// The call's answer, and the register's value.
#[inline]
pub(crate) fn read(state: &State, offset: u32) -> (u32, u32) {
    // SAFETY: a reference and a number.
    halves(unsafe { library::zelezmut_read(&state.words, offset) })
}

/// The three parts of the number that a call says which runs.
#[inline]
fn ran(said: u64) -> Ran {
    (
        u32::from(said as u8),
        u32::from((said >> 8) as u8),
        (said >> 16) as u16,
    )
}

#[inline]
pub(crate) fn run(state: &mut State, memory: &mut [u8], allowance: u16) -> Ran {
    // SAFETY: references and a number; the memory's own pointer and length.
    ran(unsafe {
        library::zelezmut_run(
            &mut state.words,
            &mut state.entries,
            &mut state.first,
            &mut state.second,
            &mut state.first_tokens,
            &mut state.second_tokens,
            &mut state.records,
            memory.as_mut_ptr(),
            memory.len(),
            allowance,
        )
    })
}

/// The call's answer, and the record.
#[inline]
pub(crate) fn record(state: &State, i: u32) -> (u32, Said) {
    let mut said = MaybeUninit::uninit();
    // SAFETY: references and a number; the call sets all five words, whatever its answer is.
    unsafe {
        let answer = library::zelezmut_record(&state.words, &state.records, i, &mut said);
        (answer, said.assume_init())
    }
}

#[inline]
pub(crate) fn answer(state: &mut State, memory: &mut [u8], good: bool, allowance: u16) -> Ran {
    // SAFETY: references and numbers; the memory's own pointer and length.
    ran(unsafe {
        library::zelezmut_answer(
            &mut state.words,
            &mut state.entries,
            &mut state.first,
            &mut state.second,
            &mut state.first_tokens,
            &mut state.second_tokens,
            &mut state.records,
            memory.as_mut_ptr(),
            memory.len(),
            good.into(),
            allowance,
        )
    })
}

/// The call's answer, and how many bytes of the buffer are the saved desk.
#[inline]
pub(crate) fn save(state: &State, form: Form, buffer: &mut [u8]) -> (u32, u32) {
    let export = match form {
        Form::One => library::zelezmut_save,
        Form::Two => library::zelezmut_save_form_2,
    };
    // SAFETY: references; the buffer's own pointer and length.
    halves(unsafe {
        export(
            &state.words,
            &state.first,
            &state.second,
            &state.first_tokens,
            &state.second_tokens,
            buffer.as_mut_ptr(),
            buffer.len(),
        )
    })
}

/// The call's answer, and the place in the file that is bad.
#[inline]
pub(crate) fn load(state: &mut State, file: &[u8]) -> (u32, u32) {
    // SAFETY: references; the file's own pointer and length, and it is only read.
    halves(unsafe {
        library::zelezmut_load(
            &mut state.words,
            &mut state.first,
            &mut state.first_tokens,
            file.as_ptr(),
            file.len(),
        )
    })
}

/// The call's answer, and how many bytes of the buffer are the file in its other form.
#[inline]
pub(crate) fn move_form(file: &[u8], buffer: &mut [u8]) -> (u32, u32) {
    check_layout();
    // SAFETY: pointers and lengths of the slices themselves; the file is only read, and a buffer lent for writing overlaps nothing.
    halves(unsafe {
        library::zelezmut_move(file.as_ptr(), file.len(), buffer.as_mut_ptr(), buffer.len())
    })
}

/// The call's answer, and the text that it has written into a new buffer of this many bytes.
pub(crate) fn dump(stream: &[u8], strict: bool, room: usize) -> (u32, Vec<u8>) {
    check_layout();
    let mut text = Vec::with_capacity(room);
    let buffer: &mut [MaybeUninit<u8>] = text.spare_capacity_mut();
    let (start, len) = (buffer.as_mut_ptr().cast(), buffer.len());
    // SAFETY: pointers and lengths of the slices themselves; the stream is only read, and the buffer overlaps nothing. The call
    // gives how many bytes at the buffer's front it has written, none if it is refused.
    unsafe {
        let said = library::zelezmut_dump(stream.as_ptr(), stream.len(), strict.into(), start, len);
        let (answer, length) = dumped(said);
        text.set_len(length);
        (answer, text)
    }
}

/// The answer and the length of the number that a dump says.
#[inline]
fn dumped(said: u64) -> (u32, usize) {
    ((said >> 56) as u32, (said & ((1 << 56) - 1)) as usize)
}

/// Makes the totals of no submissions.
#[inline]
pub(crate) fn month_make(totals: &mut TotalsWords) {
    check_layout();
    // SAFETY: a reference.
    unsafe { library::zelezmut_month_make(totals) }
}

/// The call's answer. The records are the first `count` rows.
#[inline]
pub(crate) fn month_feed(
    totals: &mut TotalsWords,
    error: u32,
    units: u32,
    count: u32,
    records: &Records,
) -> u32 {
    check_layout();
    // SAFETY: references and numbers; no row is read where there are more than the table has.
    unsafe { library::zelezmut_month_feed(totals, error, units, count, records) }
}

/// The call's answer.
#[inline]
pub(crate) fn month_merge(totals: &mut TotalsWords, other: &TotalsWords) -> u32 {
    check_layout();
    // SAFETY: references.
    unsafe { library::zelezmut_month_merge(totals, other) }
}

/// The total at a place of the published order.
#[inline]
pub(crate) fn month_total(totals: &TotalsWords, i: u32) -> u64 {
    check_layout();
    // SAFETY: a reference and a number.
    unsafe { library::zelezmut_month_total(totals, i) }
}

#[cfg(test)]
mod dumping;
#[cfg(test)]
mod fuzz;
#[cfg(test)]
mod months;
#[cfg(test)]
mod resting;
#[cfg(test)]
mod saving;
#[cfg(test)]
mod tests;
