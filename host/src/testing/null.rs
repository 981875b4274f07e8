//! Calls of the library with null pointers: whatever is empty may be lent as one.

use crate::sys::{self, BlockOutcome, BlockWithIndex, ColumnsAnswer, Line, Receiver, Report};
use crate::sys::{Reported, Written};
use core::ptr::{null, null_mut};

pub fn read_line() -> Line {
    // SAFETY: null is allowed with length 0.
    unsafe { sys::ttcrx_read_line(null(), 0) }
}

pub fn write_short(number: u64) -> Written {
    // SAFETY: null is allowed with length 0.
    unsafe { sys::ttcrx_write_short(number, null_mut(), 0) }
}

pub fn write_long(number: u64) -> Written {
    // SAFETY: null is allowed with length 0.
    unsafe { sys::ttcrx_write_long(number, null_mut(), 0) }
}

/// The block is null.
pub fn run_no_block(receiver: &mut Receiver, buffer: &mut [u32]) -> BlockOutcome {
    // SAFETY: null is allowed with length 0; the others are exclusive.
    unsafe { sys::ttcrx_run_block(receiver, null(), 0, buffer.as_mut_ptr(), buffer.len()) }
}

/// The buffer is null.
pub fn run_block_to_null(receiver: &mut Receiver, block: &[u8]) -> BlockOutcome {
    // SAFETY: null is allowed with length 0; the receiver is exclusive, the block a shared slice.
    unsafe { sys::ttcrx_run_block(receiver, block.as_ptr(), block.len(), null_mut(), 0) }
}

/// Both are null.
pub fn run_no_block_to_null(receiver: &mut Receiver) -> BlockOutcome {
    // SAFETY: null is allowed with length 0; the receiver is exclusive.
    unsafe { sys::ttcrx_run_block(receiver, null(), 0, null_mut(), 0) }
}

pub fn check_columns() -> ColumnsAnswer {
    // SAFETY: null is allowed with length 0.
    unsafe { sys::ttcrx_check_columns(null(), 0) }
}

/// Columns, block and buffer are null.
pub fn run_no_block_without_columns(receiver: &mut Receiver) -> BlockWithIndex {
    // SAFETY: null is allowed with length 0; the receiver is exclusive.
    unsafe { sys::ttcrx_run_block_with_columns(receiver, null(), 0, null(), 0, null_mut(), 0) }
}

/// Block and buffer are null.
pub fn run_no_block_with_columns(receiver: &mut Receiver, columns: &[u8]) -> BlockWithIndex {
    let (pointer, length) = (columns.as_ptr(), columns.len());
    // SAFETY: null is allowed with length 0; the receiver is exclusive, the columns a shared slice.
    unsafe {
        sys::ttcrx_run_block_with_columns(receiver, pointer, length, null(), 0, null_mut(), 0)
    }
}

/// The input is null.
pub fn report_no_input(report: Report, buffer: &mut [u8]) -> Reported {
    // SAFETY: null is allowed with length 0; the buffer is an exclusive slice.
    unsafe { sys::ttcrx_report_input(report, null(), 0, buffer.as_mut_ptr(), buffer.len()) }
}

/// The buffer is null.
pub fn report_input_to_null(report: Report, input: &[u8]) -> Reported {
    // SAFETY: null is allowed with length 0; the input is a shared slice.
    unsafe { sys::ttcrx_report_input(report, input.as_ptr(), input.len(), null_mut(), 0) }
}

/// Both are null.
pub fn report_no_input_to_null(report: Report) -> Reported {
    // SAFETY: null is allowed with length 0.
    unsafe { sys::ttcrx_report_input(report, null(), 0, null_mut(), 0) }
}

pub fn report_end_to_null(report: Report) -> Reported {
    // SAFETY: null is allowed with length 0.
    unsafe { sys::ttcrx_report_end(report, null_mut(), 0) }
}
