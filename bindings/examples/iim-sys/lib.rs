//! Bindings to the library `libiim`: the functions of `iim.h` that a reader needs, and two safe
//! functions over them, [`check`] and [`read`].
//!
//! `iim.h` documents the parameters and the results of each function.
#![allow(non_camel_case_types)]

use std::ffi::{c_char, CStr};
use std::{fmt, ptr};

/// The version of the interface that this crate declares.
pub const IIM_VERSION: u32 = 1;

pub const IIM_DONE: u8 = 0;
pub const IIM_MORE: u8 = 1;
pub const IIM_REFUSED: u8 = 2;
pub const IIM_TRUNCATED: u8 = 3;
pub const IIM_SHORT: u8 = 5;
pub const IIM_NO_MEMORY: u8 = 6;

/// The limits on records 1 and 2, passed by value. The default, all zero, selects the limits of
/// wire copy.
#[repr(C)]
#[derive(Clone, Copy, Debug, Default)]
pub struct iim_limits {
    pub octets: u32,
    pub fields: u32,
}

/// The result of a call.
#[repr(C)]
#[derive(Clone, Copy, Debug, Default)]
pub struct iim_answer {
    pub status: u8,
    pub layer: u8,
    pub cause: u8,
    pub rec: u8,
    pub set: u8,
    pub octet: u64,
    pub used: usize,
    pub written: usize,
    pub ticket: usize,
}

/// A slice of a ticket: `count` bytes from `offset` on.
#[repr(C)]
#[derive(Clone, Copy, Debug, Default)]
pub struct iim_span {
    pub offset: usize,
    pub count: usize,
}

/// A dataset of records 1 and 2: its record, its number and its data.
#[repr(C)]
#[derive(Clone, Copy, Debug, Default)]
pub struct iim_dataset {
    pub rec: u8,
    pub set: u8,
    pub data: iim_span,
}

#[link(name = "iim")]
extern "C" {
    pub fn iim_check(limits: iim_limits, octets: *const u8, len: usize, answer: *mut iim_answer);
    pub fn iim_feed(
        limits: iim_limits,
        ticket: *const u8,
        ticket_len: usize,
        at: u64,
        piece: *const u8,
        piece_len: usize,
        text_out: *mut u8,
        text_len: usize,
        ticket_out: *mut u8,
        ticket_out_len: usize,
        answer: *mut iim_answer,
    );
    pub fn iim_end(limits: iim_limits, ticket: *const u8, ticket_len: usize, at: u64, answer: *mut iim_answer);
    pub fn iim_fields(
        ticket: *const u8,
        ticket_len: usize,
        from: usize,
        datasets: *mut iim_dataset,
        datasets_len: usize,
        answer: *mut iim_answer,
    );
    pub fn iim_cause_name(cause: u8, out: *mut c_char, len: usize) -> usize;
    pub fn iim_layer_name(layer: u8, out: *mut c_char, len: usize) -> usize;
    pub fn iim_version() -> u32;
}

/// The reason why bytes are rejected. It is displayed as `iimwire check` prints it.
#[derive(Clone, Copy, Debug, PartialEq, Eq)]
pub struct Refusal {
    /// Whether the input ends inside an envelope: more bytes may complete it.
    pub is_truncated: bool,
    /// The numbers of the layer and of the cause.
    pub layer: u8,
    pub cause: u8,
    /// The record of the dataset concerned, and its number within the record.
    pub record: u8,
    pub number: u8,
    /// The offset of the rejected byte, or the length of the input if it is truncated.
    pub octet: u64,
}

impl fmt::Display for Refusal {
    fn fmt(&self, to: &mut fmt::Formatter<'_>) -> fmt::Result {
        let (layer, cause) = (name(iim_layer_name, self.layer), name(iim_cause_name, self.cause));
        let Refusal { record, number, octet, .. } = self;
        write!(to, "refused at octet {octet} by layer {layer} on {record}:{number:02}, cause {} {cause}", self.cause)
    }
}

impl std::error::Error for Refusal {}

/// An envelope and its length in bytes.
#[derive(Clone, Debug)]
pub struct Envelope {
    pub octets: usize,
    ticket: Vec<u8>,
}

impl Envelope {
    /// Returns the data of the first dataset with this record and number, or `None`.
    pub fn first(&self, record: u8, number: u8) -> Option<&[u8]> {
        let dataset = self.datasets().into_iter().find(|dataset| (dataset.rec, dataset.set) == (record, number))?;
        Some(&self.ticket[dataset.data.offset..][..dataset.data.count])
    }

    /// Returns the datasets of records 1 and 2, in order.
    fn datasets(&self) -> Vec<iim_dataset> {
        let mut datasets = vec![iim_dataset::default(); 64];
        loop {
            let mut answer = iim_answer::default();
            // SAFETY: both pointers have their length, and the array and the answer are writable.
            unsafe { iim_fields(self.ticket.as_ptr(), self.ticket.len(), 0, datasets.as_mut_ptr(), datasets.len(), &mut answer) };
            datasets.resize(answer.written, iim_dataset::default());
            if answer.status != IIM_SHORT {
                return datasets;
            }
        }
    }
}

/// Returns the length of the envelope at the beginning of `octets`, and reads no byte after it.
pub fn check(octets: &[u8]) -> Result<usize, Refusal> {
    let mut answer = iim_answer::default();
    // SAFETY: the pointer has its length, and the answer is writable.
    unsafe { iim_check(iim_limits::default(), octets.as_ptr(), octets.len(), &mut answer) };
    match answer.status {
        IIM_DONE => Ok(answer.used),
        _ => Err(refusal(&answer)),
    }
}

/// Reads the envelope at the beginning of `octets`.
pub fn read(octets: &[u8]) -> Result<Envelope, Refusal> {
    let limits = iim_limits::default();
    let mut answer = iim_answer::default();
    let mut text = vec![0; octets.len()];
    let mut ticket = vec![0; 65_536 + 6 * 512 + 256];
    // SAFETY: each pointer has its length, and the buffers that are written overlap nothing else.
    unsafe {
        let (piece, text_out, ticket_out) = (octets.as_ptr(), text.as_mut_ptr(), ticket.as_mut_ptr());
        iim_feed(limits, ptr::null(), 0, 0, piece, octets.len(), text_out, text.len(), ticket_out, ticket.len(), &mut answer);
    }
    ticket.truncate(answer.ticket);
    if answer.status == IIM_MORE {
        // SAFETY: as above.
        unsafe { iim_end(limits, ticket.as_ptr(), ticket.len(), answer.octet, &mut answer) };
    }
    match answer.status {
        IIM_DONE => Ok(Envelope { octets: answer.used, ticket }),
        _ => Err(refusal(&answer)),
    }
}

/// Returns the refusal in an answer. Panics if an allocation failed.
fn refusal(answer: &iim_answer) -> Refusal {
    assert_ne!(answer.status, IIM_NO_MEMORY, "out of memory");
    Refusal {
        is_truncated: answer.status == IIM_TRUNCATED,
        layer: answer.layer,
        cause: answer.cause,
        record: answer.rec,
        number: answer.set,
        octet: answer.octet,
    }
}

/// Returns the name of a number.
fn name(function: unsafe extern "C" fn(u8, *mut c_char, usize) -> usize, number: u8) -> String {
    let mut out = [0 as c_char; 64];
    // SAFETY: the buffer has its length, and the function ends the name with a NUL.
    let told = unsafe {
        function(number, out.as_mut_ptr(), out.len());
        CStr::from_ptr(out.as_ptr())
    };
    told.to_string_lossy().into_owned()
}
