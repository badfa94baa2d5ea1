//! Why there is no text.

use crate::calls::{self, RawFault};
use std::collections::TryReserveError;
use std::fmt;

macro_rules! kinds {
    ($($(#[$doc:meta])* $name:ident,)*) => {
        /// The kinds of fault. [`Kind::sentence`] tells what each is.
        #[derive(Clone, Copy, Debug, PartialEq, Eq, Hash)]
        #[non_exhaustive]
        pub enum Kind {
            $($(#[$doc])* $name,)*
            /// A kind of a later library.
            Other(u32),
        }

        impl Kind {
            /// All kinds, in the order of their numbers, from 1.
            pub const ALL: &'static [Kind] = &[$(Kind::$name),*];
        }
    };
}

kinds! {
    /// The bytes since the last whole character begin no character of UTF-8.
    NotUtf8,
    /// The character U+0000 stands literally.
    Nul,
    /// A character can't stand there in a tag, or begins none.
    BadTag,
    /// An end tag has another name than the open element.
    Mismatch,
    /// An end tag stands where no element is open.
    NothingOpen,
    /// In HTML, `/>` ends the start tag of an element that an end tag has to close.
    SelfClosed,
    /// A named character reference isn't in the table of HTML 4.01.
    UnknownReference,
    /// A numeric character reference is to 0, to a surrogate, or past U+10FFFF.
    BadReference,
    /// An element stands below the 512th level.
    TooDeep,
    /// A tag has more than 1,048,576 bytes.
    TagTooLong,
    /// Text, a reference, a CDATA section or a further start tag stands outside the root.
    Outside,
    /// The first start tag isn't `html`.
    RootNotHtml,
    /// A document type isn't HTML's, is a second one, or stands after the root's start tag.
    BadDoctype,
    /// The page ends too early.
    Unended,
    /// In XHTML, an attribute's name stands twice in one tag.
    RepeatedAttribute,
    /// In XHTML, a character that XML doesn't allow stands in text, a value or a comment.
    StrictText,
    /// In HTML, there is a `plaintext` element.
    Plaintext,
    /// The page has more than 1,073,741,824 bytes.
    PageTooLong,
    /// A `vocab` attribute has no scheme.
    RelativeVocab,
    /// A property has the datatype rdf:XMLLiteral, whose value would be markup.
    XmlLiteral,
    /// A property has the datatype rdf:HTML, whose value would be markup.
    HtmlLiteral,
    /// An item is a value within itself.
    Cycle,
    /// An item stands within 40 others.
    ItemsTooNested,
    /// There are more than 100,000 item objects.
    ItemsTooMany,
}

impl Kind {
    fn of(number: u32) -> Kind {
        let place = (number as usize).checked_sub(1);
        place.and_then(|place| Kind::ALL.get(place).copied()).unwrap_or(Kind::Other(number))
    }

    fn number(self) -> u32 {
        match self {
            Kind::Other(number) => number,
            known => Kind::ALL.iter().zip(1..).find(|(kind, _)| **kind == known).map_or(0, |(_, number)| number),
        }
    }

    /// A sentence on the kind.
    ///
    /// ```
    /// assert_eq!(rdfax::Kind::Unended.sentence(), "The page ends too early.");
    /// ```
    pub fn sentence(self) -> &'static str {
        calls::kind_sentence(self.number()).unwrap_or("A kind of a later library.")
    }
}

/// The kind's name, as the command writes it.
impl fmt::Display for Kind {
    fn fmt(&self, out: &mut fmt::Formatter<'_>) -> fmt::Result {
        write!(out, "{self:?}")
    }
}

/// The first fault of a page: its kind and its place, in bytes from the page's first one, which is 0.
#[derive(Clone, Copy, Debug, PartialEq, Eq, Hash)]
#[non_exhaustive]
pub struct Fault {
    /// What it is.
    pub kind: Kind,
    /// The first byte of the token that is faulty or unfinished.
    pub token: u64,
    /// The byte that decides the fault.
    pub at: u64,
}

impl Fault {
    pub(crate) fn of(raw: &RawFault) -> Fault {
        Fault { kind: Kind::of(raw.kind), token: raw.token, at: raw.at }
    }
}

/// As the command tells it.
impl fmt::Display for Fault {
    fn fmt(&self, out: &mut fmt::Formatter<'_>) -> fmt::Result {
        write!(out, "{} at byte {} in token {}", self.kind, self.at, self.token)
    }
}

/// Why there is no text.
#[derive(Clone, Copy, Debug, PartialEq, Eq)]
#[non_exhaustive]
pub enum Error {
    /// The page has this fault.
    Refused(Fault),
    /// The base or the graph's name is no IRI, or the format has no names of graphs, or the first node is above 2^63.
    Usage,
    /// There was no memory.
    NoMemory,
    /// The context file has another shape, or it is too long.
    BadContext,
}

impl fmt::Display for Error {
    fn fmt(&self, out: &mut fmt::Formatter<'_>) -> fmt::Result {
        match self {
            Error::Refused(fault) => write!(out, "refused: {fault}"),
            Error::Usage => write!(out, "nothing that rdfax does was asked for"),
            Error::NoMemory => write!(out, "there was no memory"),
            Error::BadContext => write!(out, "refused: context file"),
        }
    }
}

impl std::error::Error for Error {}

impl From<TryReserveError> for Error {
    fn from(_: TryReserveError) -> Error {
        Error::NoMemory
    }
}
