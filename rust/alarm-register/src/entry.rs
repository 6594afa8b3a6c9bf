//! The four functions of the static library, behind slices. All unsafe code of this crate is here.
#![allow(unsafe_code)]

use crate::refusal::Refusal;

extern "C" {
    fn alarm_open(register: *mut u8, register_length: usize, active: u32, history: u32, audit: u32, length: *mut u64) -> u32;
    fn alarm_step(
        register: *mut u8,
        register_length: usize,
        call: *const u8,
        call_length: usize,
        answer: *mut u8,
        answer_length: usize,
        length: *mut u64,
    ) -> u32;
    fn alarm_panel_look(
        register: *const u8,
        register_length: usize,
        block: *mut u8,
        block_length: usize,
        length: *mut u64,
    ) -> u32;
    fn alarm_panel_write(
        register: *const u8,
        register_length: usize,
        block: *mut u8,
        block_length: usize,
        at: u32,
        value: u8,
        length: *mut u64,
    ) -> u32;
}

/// What a returned number and length mean.
fn outcome(number: u32, length: u64) -> Result<usize, Refusal> {
    match number {
        0 => Ok(usize::try_from(length).expect("an answer is no longer than its slice")),
        refused => Err(Refusal::from_number(refused)),
    }
}

/// Makes a fresh register of these limits in the slice.
pub(crate) fn open(register: &mut [u8], active: u32, history: u32, audit: u32) -> Result<(), Refusal> {
    let mut length = 0;
    // SAFETY: the slice is valid for reads and writes of its length while it is lent, also where that is 0 (its pointer is
    // never null); `length` is a place of our own, so nothing overlaps. The function keeps no pointer.
    let number = unsafe { alarm_open(register.as_mut_ptr(), register.len(), active, history, audit, &mut length) };
    outcome(number, length).map(|_| ())
}

/// Performs a call; gives the part of the slice that the answer fills.
pub(crate) fn step<'a>(register: &mut [u8], call: &[u8], answer: &'a mut [u8]) -> Result<&'a [u8], Refusal> {
    let mut length = 0;
    // SAFETY: as for `open`; the borrow rules keep the two mutable slices apart from each other and from the call.
    let number = unsafe {
        alarm_step(
            register.as_mut_ptr(),
            register.len(),
            call.as_ptr(),
            call.len(),
            answer.as_mut_ptr(),
            answer.len(),
            &mut length,
        )
    };
    outcome(number, length).map(|length| &answer[..length])
}

/// Makes a panel block anew.
pub(crate) fn panel_look(register: &[u8], block: &mut [u8]) -> Result<(), Refusal> {
    let mut length = 0;
    // SAFETY: as for `step`; the register is only read.
    let number = unsafe { alarm_panel_look(register.as_ptr(), register.len(), block.as_mut_ptr(), block.len(), &mut length) };
    outcome(number, length).map(|_| ())
}

/// Writes a byte of a panel block, and makes the block anew.
pub(crate) fn panel_write(register: &[u8], block: &mut [u8], at: u32, value: u8) -> Result<(), Refusal> {
    let mut length = 0;
    // SAFETY: as for `panel_look`.
    let number =
        unsafe { alarm_panel_write(register.as_ptr(), register.len(), block.as_mut_ptr(), block.len(), at, value, &mut length) };
    outcome(number, length).map(|_| ())
}
