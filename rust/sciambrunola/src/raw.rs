//! The functions of the archive, as `include/sciambrunola.h` declares them, and
//! all unsafe code of this package.
//!
//! What the header asks of a caller is what Rust's borrows give: every pointer is
//! valid for its count, and a buffer that a call may write is borrowed mutably,
//! so it overlaps no other. Shared slices may be the same or overlap.

mod answers;

pub(crate) use answers::*;

use crate::constants::PARTITIONS;
use crate::context::Context;

/// A drive as most functions are lent it, with cells and a context that they may
/// change.
pub(crate) struct Drive<'a> {
    pub(crate) image: &'a [u8],
    pub(crate) cells: &'a mut [u32],
    pub(crate) marks: &'a [u32],
    pub(crate) context: &'a mut Context,
}

/// What the mailbox is lent besides.
pub(crate) struct Buffers<'a> {
    pub(crate) request: &'a [u8],
    pub(crate) response: &'a mut [u8],
    pub(crate) block: &'a mut [u8],
}

/// Declares functions of the archive that are lent a drive. Before the parameters
/// that stand here they have the drive's: each part's pointer, then its count; the
/// context has none.
macro_rules! lent_a_drive {
    ($(fn $function:ident($($parameter:ident: $type:ty),*) -> $answer:ty;)*) => {
        extern "C" {
            $(fn $function(
                image: *const u8,
                image_bytes: usize,
                cells: *mut u32,
                cell_count: usize,
                marks: *const u32,
                mark_count: usize,
                context: *mut Context,
                $($parameter: $type),*
            ) -> $answer;)*
        }
    };
}

lent_a_drive! {
    fn sci_read(cell: u32) -> Answer;
    fn sci_write(cell: u32, value: u64) -> Answer;
    fn sci_zeroize(cell: u32) -> Answer;
    fn sci_erase(partition: u32) -> Erasure;
    fn sci_erase_cut(partition: u32, k: u32, mask: u64) -> Erasure;
    fn sci_mailbox(
        code: u32,
        request: *const u8,
        request_bytes: usize,
        response: *mut u8,
        response_bytes: usize,
        block: *mut u8,
        block_bytes: usize
    ) -> Reply;
}

extern "C" {
    fn sci_partition(image: *const u8, image_bytes: usize, partition: u32) -> Fields;

    fn sci_write_map(
        text: *const u8,
        text_bytes: usize,
        image: *mut u8,
        image_bytes: usize,
    ) -> Written;

    fn sci_states(
        image: *const u8,
        image_bytes: usize,
        cells: *const u32,
        cell_count: usize,
        marks: *const u32,
        mark_count: usize,
        states: *mut u32,
        short_pairs: *mut u32,
    ) -> Listing;

    fn sci_why(
        image: *const u8,
        image_bytes: usize,
        cells: *const u32,
        cell_count: usize,
        marks: *const u32,
        mark_count: usize,
    ) -> Reason;

    fn sci_cache_place(context: *const Context, place: u32) -> Place;

    fn sci_restart(context: *mut Context);

    fn sci_engine_reply(context: *mut Context, reply: u32, vendor: u32) -> u32;

    fn sci_make_table(
        context: *mut Context,
        handles: *const u32,
        handle_count: usize,
        algorithms: *const u32,
        algorithm_count: usize,
    ) -> u32;
}

/// Calls a function of the archive with the parts of a drive, each pointer
/// with its count, before its other arguments.
macro_rules! call {
    ($function:ident, $drive:expr $(, $argument:expr)*) => {{
        let Drive { image, cells, marks, context } = $drive;
        // SAFETY: every pointer and count is that of a borrowed slice or context.
        // A pointer that is not const is that of a mutable borrow, which
        // overlaps no other borrow; the const ones are only read.
        unsafe {
            $function(
                image.as_ptr(),
                image.len(),
                cells.as_mut_ptr(),
                cells.len(),
                marks.as_ptr(),
                marks.len(),
                context,
                $($argument),*
            )
        }
    }};
}

pub(crate) fn partition(image: &[u8], number: u32) -> Fields {
    // SAFETY: pointer and count are those of a borrowed slice, which is only read.
    unsafe { sci_partition(image.as_ptr(), image.len(), number) }
}

pub(crate) fn write_map(text: &[u8], image: &mut [u8]) -> Written {
    let (from, to) = (text.as_ptr(), image.as_mut_ptr());
    // SAFETY: every pointer and count is that of a borrowed slice. The text is only read;
    // the image is borrowed mutably, so it overlaps nothing.
    unsafe { sci_write_map(from, text.len(), to, image.len()) }
}

pub(crate) fn states(
    image: &[u8],
    cells: &[u32],
    marks: &[u32],
    states: &mut [u32; PARTITIONS],
    short_pairs: &mut [u32; PARTITIONS],
) -> Listing {
    // SAFETY: every pointer and count is that of a borrowed slice, which is only
    // read, or that of an array of 16, borrowed mutably.
    unsafe {
        sci_states(
            image.as_ptr(),
            image.len(),
            cells.as_ptr(),
            cells.len(),
            marks.as_ptr(),
            marks.len(),
            states.as_mut_ptr(),
            short_pairs.as_mut_ptr(),
        )
    }
}

pub(crate) fn why(image: &[u8], cells: &[u32], marks: &[u32]) -> Reason {
    let (map, fuses, stuck) = (image.as_ptr(), cells.as_ptr(), marks.as_ptr());
    // SAFETY: every pointer and count is that of a borrowed slice, which is only read.
    unsafe { sci_why(map, image.len(), fuses, cells.len(), stuck, marks.len()) }
}

pub(crate) fn cache_place(context: &Context, place: u32) -> Place {
    // SAFETY: the pointer is that of a borrow, which is only read.
    unsafe { sci_cache_place(context, place) }
}

#[inline]
pub(crate) fn read(drive: Drive, cell: u32) -> Answer {
    call!(sci_read, drive, cell)
}

#[inline]
pub(crate) fn write(drive: Drive, cell: u32, value: u64) -> Answer {
    call!(sci_write, drive, cell, value)
}

#[inline]
pub(crate) fn zeroize(drive: Drive, cell: u32) -> Answer {
    call!(sci_zeroize, drive, cell)
}

#[inline]
pub(crate) fn erase(drive: Drive, partition: u32) -> Erasure {
    call!(sci_erase, drive, partition)
}

#[inline]
pub(crate) fn erase_cut(drive: Drive, partition: u32, k: u32, mask: u64) -> Erasure {
    call!(sci_erase_cut, drive, partition, k, mask)
}

pub(crate) fn restart(context: &mut Context) {
    // SAFETY: the pointer is that of a mutable borrow.
    unsafe { sci_restart(context) }
}

#[inline]
pub(crate) fn engine_reply(context: &mut Context, reply: u32, vendor: u32) -> u32 {
    // SAFETY: the pointer is that of a mutable borrow.
    unsafe { sci_engine_reply(context, reply, vendor) }
}

pub(crate) fn make_table(context: &mut Context, handles: &[u32], algorithms: &[u32]) -> u32 {
    let (first, second) = (handles.as_ptr(), algorithms.as_ptr());
    // SAFETY: every pointer and count is that of a borrowed slice, which is only read. The
    // context is borrowed mutably, so it overlaps nothing.
    unsafe { sci_make_table(context, first, handles.len(), second, algorithms.len()) }
}

#[inline]
pub(crate) fn mailbox(drive: Drive, code: u32, buffers: Buffers) -> Reply {
    let Buffers { request, response, block } = buffers;
    call!(
        sci_mailbox,
        drive,
        code,
        request.as_ptr(),
        request.len(),
        response.as_mut_ptr(),
        response.len(),
        block.as_mut_ptr(),
        block.len()
    )
}
