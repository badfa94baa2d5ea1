//! RDFa and Microdata of HTML pages, read by an exact grammar.
//!
//! A page goes in as bytes of UTF-8, at once or in pieces; its data comes out as a text ([`extract`], [`items`]) or as quads
//! ([`quads()`]). A page that isn't one by rdfax's grammar is refused at its first faulty byte, with a [`Fault`].
//!
//! ```
//! let page = r#"<html><p property="dc:title">Anvil</p></html>"#;
//! let text = rdfax::extract(page, "http://h.example/d", rdfax::Format::NQuads)?;
//! assert_eq!(text, "<http://h.example/d> <http://purl.org/dc/terms/title> \"Anvil\" .\n");
//!
//! match rdfax::check("<html></p></html>") {
//!     Err(rdfax::Error::Refused(fault)) => assert_eq!((fault.kind, fault.at), (rdfax::Kind::Mismatch, 9)),
//!     other => panic!("{other:?}"),
//! }
//! # Ok::<(), rdfax::Error>(())
//! ```
//!
//! [`Page`] takes a page in pieces. It can be sent to another thread; several threads have pages of their own.
//!
//! ```
//! # let chunks = ["<html><p property='dc:title'>An", "vil</p></html>"];
//! let mut page = rdfax::Page::extract("http://h.example/d", rdfax::Format::Turtle, &rdfax::Options::default())?;
//! for chunk in chunks {
//!     page.feed(chunk.as_bytes())?;
//! }
//! let text = page.finish()?.text()?;
//! assert!(text.ends_with("<http://h.example/d> dc:title \"Anvil\" .\n"));
//! # Ok::<(), rdfax::Error>(())
//! ```
//!
//! # Limits
//!
//! A page has 1,073,741,824 bytes at the most, a tag 1,048,576, and elements stand in 512 levels at the most. A hostile page
//! can make memory grow with the square of its size, 300 MB for 100 kB, and with it the time. Where there is no memory the
//! answer is [`Error::NoMemory`]; neither the library nor this crate aborts for want of it.

mod calls;
mod errors;
mod options;
mod page;
mod quads;
mod terms;

pub use errors::{Error, Fault, Kind};
pub use options::{Format, Options, Syntax};
pub use page::{Finished, Page};
pub use quads::Quads;
pub use terms::{Literal, Quad, Term};

/// The triples of a page of HTML at this address, as a text.
///
/// [`Page::extract`] takes a page in pieces, and options.
pub fn extract(page: impl AsRef<[u8]>, base: &str, format: Format) -> Result<String, Error> {
    whole(Page::extract(base, format, &Options::default())?, page.as_ref())?.text()
}

/// The items (Microdata) of a page of HTML at this address, as JSON in one line.
///
/// ```
/// let page = r#"<html><p itemscope itemtype="http://schema.org/Product"></p></html>"#;
/// let text = rdfax::items(page, "http://h.example/d")?;
/// assert_eq!(text, "{\"items\":[{\"properties\":{},\"type\":[\"http://schema.org/Product\"]}]}\n");
/// # Ok::<(), rdfax::Error>(())
/// ```
pub fn items(page: impl AsRef<[u8]>, base: &str) -> Result<String, Error> {
    whole(Page::items(base, Syntax::Html)?, page.as_ref())?.text()
}

/// Whether a page of HTML has a fault, which is the error then.
pub fn check(page: impl AsRef<[u8]>) -> Result<(), Error> {
    whole(Page::check(Syntax::Html, None)?, page.as_ref()).map(drop)
}

/// The quads of a page of HTML at this address, one at a time.
///
/// ```
/// use rdfax::Term;
///
/// let page = r#"<html><p lang="en" property="dc:title">Anvil</p></html>"#;
/// for quad in rdfax::quads(page, "http://h.example/d")? {
///     let quad = quad?;
///     assert_eq!(quad.predicate, Term::Iri("http://purl.org/dc/terms/title".to_owned()));
///     if let Term::Literal(literal) = &quad.object {
///         assert_eq!((&*literal.text, literal.language.as_deref()), ("Anvil", Some("en")));
///     }
///     assert_eq!(quad.to_string(), r#"<http://h.example/d> <http://purl.org/dc/terms/title> "Anvil"@en ."#);
/// }
/// # Ok::<(), rdfax::Error>(())
/// ```
pub fn quads(page: impl AsRef<[u8]>, base: &str) -> Result<Quads, Error> {
    Ok(whole(Page::quads(base, &Options::default())?, page.as_ref())?.into_quads())
}

/// The version of the C library.
///
/// ```
/// assert_eq!(rdfax::version(), env!("CARGO_PKG_VERSION"));
/// ```
pub fn version() -> &'static str {
    calls::version()
}

fn whole(mut page: Page, bytes: &[u8]) -> Result<Finished, Error> {
    page.feed(bytes)?;
    page.finish()
}

/// The example of the README is tried, too.
#[cfg(doctest)]
#[doc = include_str!("../README.md")]
struct Readme;
