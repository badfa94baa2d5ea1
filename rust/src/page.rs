//! A page that is handed over in pieces, and what comes of it.

use crate::calls::{self, RawBytes, RawFault, RawOptions, RawPage, RawTerm, RawTerms};
use crate::errors::{Error, Fault};
use crate::options::{Format, Options, Syntax};
use crate::quads::Quads;
use crate::terms::{Literal, Quad, Term};
use std::io::{self, Write};
use std::mem::MaybeUninit;
use std::{ptr, slice, str};

/// What the library keeps of a page, which is closed when this is dropped.
struct Handle(RawPage);

// SAFETY: what the library keeps is of one page alone, from an allocator that all threads share. It has no state of a thread,
// and each call takes the handle by `&mut`.
unsafe impl Send for Handle {}

impl Drop for Handle {
    fn drop(&mut self) {
        // SAFETY: the page is the library's, or none.
        unsafe { calls::rdfax_close(&mut self.0) }
    }
}

impl Handle {
    fn open(call: impl FnOnce(*mut RawPage) -> u32) -> Result<Handle, Error> {
        let mut handle = Handle(RawPage { at: ptr::null_mut(), opened: false });
        let status = call(&mut handle.0);
        handle.answered(status).map(|()| handle)
    }

    fn answered(&mut self, status: u32) -> Result<(), Error> {
        match status {
            calls::DONE => Ok(()),
            calls::REFUSED => Err(Error::Refused(self.fault())),
            calls::NO_MEMORY => Err(Error::NoMemory),
            calls::BAD_CONTEXT => Err(Error::BadContext),
            _ => Err(Error::Usage),
        }
    }

    fn fault(&mut self) -> Fault {
        let mut fault = RawFault::default();
        // SAFETY: the page is open, and the fault has the library's layout.
        unsafe { calls::rdfax_fault(&mut self.0, &mut fault) };
        Fault::of(&fault)
    }
}

/// A page that is handed over in pieces. It can be sent to another thread, and is closed when it is dropped.
pub struct Page(Handle);

impl Page {
    /// A page at this address, of whose triples a text is wanted.
    pub fn extract(base: &str, format: Format, options: &Options<'_>) -> Result<Page, Error> {
        Page::extraction(base, format.number(), options)
    }

    /// A page at this address, whose quads are wanted.
    pub fn quads(base: &str, options: &Options<'_>) -> Result<Page, Error> {
        Page::extraction(base, calls::QUADS, options)
    }

    fn extraction(base: &str, format: u32, options: &Options<'_>) -> Result<Page, Error> {
        let raw = RawOptions { syntax: options.syntax.number(), format, first_node: options.first_node };
        let (graph, graph_length) = options.graph.map_or((ptr::null(), 0), |graph| (graph.as_ptr().cast(), graph.len()));
        let (context, context_length) = options.context.map_or((ptr::null(), 0), |context| (context.as_ptr().cast(), context.len()));
        // SAFETY: each pointer is of as many bytes as are told, or null where there are none.
        Handle::open(|page| unsafe {
            calls::rdfax_extract(&raw, base.as_ptr().cast(), base.len(), graph, graph_length, context, context_length, page)
        })
        .map(Page)
    }

    /// A page at this address, whose items are wanted.
    pub fn items(base: &str, syntax: Syntax) -> Result<Page, Error> {
        // SAFETY: as above.
        Handle::open(|page| unsafe { calls::rdfax_items(syntax.number(), base.as_ptr().cast(), base.len(), page) }).map(Page)
    }

    /// A page whose faults are wanted, under the standard names or those of a context file.
    pub fn check(syntax: Syntax, context: Option<&[u8]>) -> Result<Page, Error> {
        let (context, length) = context.map_or((ptr::null(), 0), |context| (context.as_ptr().cast(), context.len()));
        // SAFETY: as above.
        Handle::open(|page| unsafe { calls::rdfax_check(syntax.number(), context, length, page) }).map(Page)
    }

    /// Hands over the next piece. After a fault or want of memory each later call answers the same.
    pub fn feed(&mut self, piece: &[u8]) -> Result<(), Error> {
        // SAFETY: the page is open, and the piece is read during the call alone.
        let status = unsafe { calls::rdfax_feed(&mut self.0 .0, piece.as_ptr().cast(), piece.len()) };
        self.0.answered(status)
    }

    /// The page's end.
    pub fn finish(mut self) -> Result<Finished, Error> {
        // SAFETY: the page is open.
        let status = unsafe { calls::rdfax_finish(&mut self.0 .0) };
        self.0.answered(status)?;
        Ok(Finished(self.0))
    }
}

/// A page that was read to its end without a fault: its text, or its quads.
pub struct Finished(Handle);

impl Finished {
    /// How many bytes its text has: 0 where quads were wanted.
    pub fn text_length(&mut self) -> usize {
        // SAFETY: the page is open.
        unsafe { calls::rdfax_text_length(&mut self.0 .0) }
    }

    /// Its text.
    pub fn text(&mut self) -> Result<String, Error> {
        let length = self.text_length();
        let mut text: Vec<u8> = Vec::new();
        text.try_reserve_exact(length)?;
        // SAFETY: there is room for so many bytes, and as many as are counted were written.
        unsafe {
            let count = calls::rdfax_text(&mut self.0 .0, 0, text.as_mut_ptr().cast(), length);
            text.set_len(count);
        }
        Ok(String::from_utf8(text).expect("the library's texts are UTF-8"))
    }

    /// Writes its text, without a copy of the whole.
    pub fn write_to(&mut self, out: &mut impl Write) -> io::Result<()> {
        let (mut room, mut from) = ([0; 8192], 0);
        loop {
            // SAFETY: the room has so many bytes.
            let count = unsafe { calls::rdfax_text(&mut self.0 .0, from, room.as_mut_ptr().cast(), room.len()) };
            if count == 0 {
                return Ok(());
            }
            out.write_all(&room[..count])?;
            from += count;
        }
    }

    /// How many blank nodes an extraction's graph has. The next page's first node is this one's and that number, where
    /// pages are put together.
    pub fn nodes(&mut self) -> u64 {
        // SAFETY: the page is open.
        unsafe { calls::rdfax_nodes(&mut self.0 .0) }
    }

    /// How many quads there are: 0 where a text was wanted.
    pub fn quad_count(&mut self) -> usize {
        // SAFETY: the page is open.
        unsafe { calls::rdfax_quad_count(&mut self.0 .0) }
    }

    /// The quad of this number, from 0, in order of first appearance, lent until the next call. `None` behind the last.
    ///
    /// ```
    /// # use rdfax::{Options, Page, Term};
    /// # let mut page = Page::quads("http://h.example/d", &Options::default())?;
    /// # page.feed(b"<html><p property='dc:title'>Anvil</p></html>")?;
    /// # let mut finished = page.finish()?;
    /// for number in 0..finished.quad_count() {
    ///     let quad = finished.quad(number)?.expect("it is there");
    ///     assert_eq!(quad.subject, Term::Iri("http://h.example/d"));
    /// }
    /// # Ok::<(), rdfax::Error>(())
    /// ```
    pub fn quad(&mut self, number: usize) -> Result<Option<Quad<&str>>, Error> {
        let mut terms = MaybeUninit::<RawTerms>::uninit();
        // SAFETY: the page is open, and where the answer is DONE the terms were written.
        let terms = unsafe {
            match calls::rdfax_quad(&mut self.0 .0, number, terms.as_mut_ptr()) {
                calls::DONE => terms.assume_init(),
                calls::USAGE => return Ok(None),
                _ => return Err(Error::NoMemory),
            }
        };
        // SAFETY: the terms stay until the next call, for which `self` is borrowed.
        Ok(Some(unsafe { quad_of(&terms) }))
    }

    /// All quads, one at a time.
    pub fn into_quads(self) -> Quads {
        Quads::of(self)
    }
}

/// # Safety
/// The bytes stay as long as is said.
unsafe fn text_of<'a>(raw: RawBytes) -> &'a str {
    if raw.length == 0 {
        return "";
    }
    str::from_utf8(slice::from_raw_parts(raw.bytes.cast(), raw.length)).expect("the library's texts are UTF-8")
}

/// # Safety
/// As of `text_of`.
unsafe fn term_of<'a>(raw: &RawTerm) -> Option<Term<&'a str>> {
    let given = |part: RawBytes| Some(text_of(part)).filter(|text| !text.is_empty());
    match raw.kind {
        calls::NOTHING => None,
        calls::IRI => Some(Term::Iri(text_of(raw.text))),
        calls::BLANK => Some(Term::Blank(text_of(raw.text))),
        calls::LITERAL => Some(Term::Literal(Literal { text: text_of(raw.text), language: given(raw.language), datatype: given(raw.datatype) })),
        other => panic!("{other} is the number of no kind of term"),
    }
}

/// # Safety
/// As of `text_of`.
unsafe fn quad_of<'a>(raw: &RawTerms) -> Quad<&'a str> {
    let there = |term: &RawTerm| term_of(term).expect("only the graph's name may be missing");
    Quad { subject: there(&raw.subject), predicate: there(&raw.predicate), object: there(&raw.object), graph: term_of(&raw.graph) }
}
