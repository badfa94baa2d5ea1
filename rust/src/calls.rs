//! The calls of `rdfax.h`, and what they lay out.

use std::ffi::{c_void, CStr};
use std::os::raw::c_char;

pub(crate) const DONE: u32 = 0;
pub(crate) const REFUSED: u32 = 1;
pub(crate) const USAGE: u32 = 2;
pub(crate) const NO_MEMORY: u32 = 5;
pub(crate) const BAD_CONTEXT: u32 = 6;

pub(crate) const QUADS: u32 = 4;

pub(crate) const NOTHING: u32 = 0;
pub(crate) const IRI: u32 = 1;
pub(crate) const BLANK: u32 = 2;
pub(crate) const LITERAL: u32 = 3;

#[repr(C)]
pub(crate) struct RawPage {
    pub(crate) at: *mut c_void,
    pub(crate) opened: bool,
}

#[repr(C)]
pub(crate) struct RawOptions {
    pub(crate) syntax: u32,
    pub(crate) format: u32,
    pub(crate) first_node: u64,
}

#[repr(C)]
#[derive(Default)]
pub(crate) struct RawFault {
    pub(crate) kind: u32,
    pub(crate) token: u64,
    pub(crate) at: u64,
}

#[repr(C)]
#[derive(Clone, Copy)]
pub(crate) struct RawBytes {
    pub(crate) bytes: *const c_char,
    pub(crate) length: usize,
}

#[repr(C)]
#[derive(Clone, Copy)]
pub(crate) struct RawTerm {
    pub(crate) kind: u32,
    pub(crate) text: RawBytes,
    pub(crate) language: RawBytes,
    pub(crate) datatype: RawBytes,
}

#[repr(C)]
pub(crate) struct RawTerms {
    pub(crate) subject: RawTerm,
    pub(crate) predicate: RawTerm,
    pub(crate) object: RawTerm,
    pub(crate) graph: RawTerm,
}

extern "C" {
    pub(crate) fn rdfax_extract(
        options: *const RawOptions,
        base: *const c_char,
        base_length: usize,
        graph: *const c_char,
        graph_length: usize,
        context: *const c_void,
        context_length: usize,
        page: *mut RawPage,
    ) -> u32;
    pub(crate) fn rdfax_items(syntax: u32, base: *const c_char, base_length: usize, page: *mut RawPage) -> u32;
    pub(crate) fn rdfax_check(syntax: u32, context: *const c_void, context_length: usize, page: *mut RawPage) -> u32;
    pub(crate) fn rdfax_feed(page: *mut RawPage, piece: *const c_void, length: usize) -> u32;
    pub(crate) fn rdfax_finish(page: *mut RawPage) -> u32;
    pub(crate) fn rdfax_text_length(page: *mut RawPage) -> usize;
    pub(crate) fn rdfax_text(page: *mut RawPage, from: usize, room: *mut c_void, length: usize) -> usize;
    pub(crate) fn rdfax_fault(page: *mut RawPage, fault: *mut RawFault) -> bool;
    pub(crate) fn rdfax_nodes(page: *mut RawPage) -> u64;
    pub(crate) fn rdfax_quad_count(page: *mut RawPage) -> usize;
    pub(crate) fn rdfax_quad(page: *mut RawPage, number: usize, terms: *mut RawTerms) -> u32;
    pub(crate) fn rdfax_close(page: *mut RawPage);
    fn rdfax_kind_sentence(kind: u32) -> *const c_char;
    fn rdfax_version() -> *const c_char;
}

/// The text of a constant of the library.
fn constant(at: *const c_char) -> Option<&'static str> {
    if at.is_null() {
        return None;
    }
    // SAFETY: the library's constants end with a 0, and stay.
    unsafe { CStr::from_ptr(at) }.to_str().ok()
}

pub(crate) fn version() -> &'static str {
    // SAFETY: the call asks nothing.
    constant(unsafe { rdfax_version() }).unwrap_or_default()
}

pub(crate) fn kind_sentence(kind: u32) -> Option<&'static str> {
    // SAFETY: the call takes any number.
    constant(unsafe { rdfax_kind_sentence(kind) })
}
