//! How a page is read, and what is made of it.

/// The syntax of a page.
#[derive(Clone, Copy, Debug, Default, PartialEq, Eq, Hash)]
pub enum Syntax {
    /// HTML.
    #[default]
    Html,
    /// XHTML.
    Xhtml,
}

impl Syntax {
    pub(crate) fn number(self) -> u32 {
        match self {
            Syntax::Html => 0,
            Syntax::Xhtml => 1,
        }
    }
}

/// The text that is made of a page's triples.
#[derive(Clone, Copy, Debug, Default, PartialEq, Eq, Hash)]
pub enum Format {
    /// RDF 1.1 N-Quads, the format whose graph may have a name.
    #[default]
    NQuads,
    /// RDF 1.1 Turtle.
    Turtle,
    /// Turtle with blank nodes and lists where they are used.
    Nested,
    /// JSON-LD 1.1, expanded and flattened, in one line.
    JsonLd,
}

impl Format {
    pub(crate) fn number(self) -> u32 {
        match self {
            Format::NQuads => 0,
            Format::Turtle => 1,
            Format::Nested => 2,
            Format::JsonLd => 3,
        }
    }
}

/// What else an extraction goes by.
///
/// ```
/// let options = rdfax::Options { graph: Some("http://h.example/g"), ..Default::default() };
/// let mut page = rdfax::Page::quads("http://h.example/d", &options)?;
/// page.feed(br#"<html><p property="dc:title">Anvil</p></html>"#)?;
/// for quad in page.finish()?.into_quads() {
///     assert_eq!(quad?.graph, Some(rdfax::Term::Iri("http://h.example/g".to_owned())));
/// }
/// # Ok::<(), rdfax::Error>(())
/// ```
#[derive(Clone, Copy, Debug, Default, PartialEq, Eq)]
pub struct Options<'a> {
    /// The page's syntax.
    pub syntax: Syntax,
    /// The name of the graph in which the quads stand, an IRI. It goes with [`Format::NQuads`] and with quads.
    pub graph: Option<&'a str>,
    /// The bytes of a context file, whose prefixes and terms hold in place of the standard ones.
    pub context: Option<&'a [u8]>,
    /// The number of the first blank node's label, 2^63 at the most. Who puts several pages together counts on with
    /// [`Finished::nodes`](crate::Finished::nodes).
    pub first_node: u64,
}
