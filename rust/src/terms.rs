//! Quads and their terms.

use crate::errors::Error;
use std::fmt;

const XSD_STRING: &str = "http://www.w3.org/2001/XMLSchema#string";
const RDF_LANG_STRING: &str = "http://www.w3.org/1999/02/22-rdf-syntax-ns#langString";

/// A literal, whose parts are of one type of text.
#[derive(Clone, Copy, Debug, PartialEq, Eq, Hash, PartialOrd, Ord)]
pub struct Literal<T = String> {
    /// Its text, without escapes.
    pub text: T,
    /// Its language tag.
    pub language: Option<T>,
    /// Its datatype, where it has no language and that isn't xsd:string.
    pub datatype: Option<T>,
}

impl<T: AsRef<str>> Literal<T> {
    /// The IRI of its datatype, which each literal has.
    pub fn datatype_iri(&self) -> &str {
        match (&self.language, &self.datatype) {
            (Some(_), _) => RDF_LANG_STRING,
            (None, Some(datatype)) => datatype.as_ref(),
            (None, None) => XSD_STRING,
        }
    }
}

/// A term, whose parts are of one type of text.
#[derive(Clone, Copy, Debug, PartialEq, Eq, Hash, PartialOrd, Ord)]
pub enum Term<T = String> {
    /// An IRI.
    Iri(T),
    /// A blank node, by its label without `_:`.
    Blank(T),
    /// A literal.
    Literal(Literal<T>),
}

/// A quad, whose parts are of one type of text.
#[derive(Clone, Copy, Debug, PartialEq, Eq, Hash, PartialOrd, Ord)]
pub struct Quad<T = String> {
    /// An IRI or a blank node.
    pub subject: Term<T>,
    /// An IRI.
    pub predicate: Term<T>,
    /// Any term.
    pub object: Term<T>,
    /// The name of its graph; none in the default graph.
    pub graph: Option<Term<T>>,
}

/// A text of its own, without an abort for want of memory.
fn own(text: &str) -> Result<String, Error> {
    let mut own = String::new();
    own.try_reserve_exact(text.len())?;
    own.push_str(text);
    Ok(own)
}

impl Term<&str> {
    fn own(&self) -> Result<Term, Error> {
        Ok(match self {
            Term::Iri(text) => Term::Iri(own(text)?),
            Term::Blank(label) => Term::Blank(own(label)?),
            Term::Literal(literal) => Term::Literal(Literal {
                text: own(literal.text)?,
                language: literal.language.map(own).transpose()?,
                datatype: literal.datatype.map(own).transpose()?,
            }),
        })
    }
}

impl Quad<&str> {
    /// The same quad with texts of its own.
    pub fn to_owned_quad(&self) -> Result<Quad, Error> {
        Ok(Quad {
            subject: self.subject.own()?,
            predicate: self.predicate.own()?,
            object: self.object.own()?,
            graph: self.graph.as_ref().map(Term::own).transpose()?,
        })
    }
}

/// As N-Quads have it.
impl<T: AsRef<str>> fmt::Display for Literal<T> {
    fn fmt(&self, out: &mut fmt::Formatter<'_>) -> fmt::Result {
        write!(out, "\"")?;
        for character in self.text.as_ref().chars() {
            match character {
                '"' => write!(out, "\\\""),
                '\\' => write!(out, "\\\\"),
                '\n' => write!(out, "\\n"),
                '\r' => write!(out, "\\r"),
                other => write!(out, "{other}"),
            }?;
        }
        match (&self.language, &self.datatype) {
            (Some(language), _) => write!(out, "\"@{}", language.as_ref()),
            (None, Some(datatype)) => write!(out, "\"^^<{}>", datatype.as_ref()),
            (None, None) => write!(out, "\""),
        }
    }
}

/// As N-Quads have it.
impl<T: AsRef<str>> fmt::Display for Term<T> {
    fn fmt(&self, out: &mut fmt::Formatter<'_>) -> fmt::Result {
        match self {
            Term::Iri(text) => write!(out, "<{}>", text.as_ref()),
            Term::Blank(label) => write!(out, "_:{}", label.as_ref()),
            Term::Literal(literal) => write!(out, "{literal}"),
        }
    }
}

/// As a line of N-Quads has it, without the line feed.
impl<T: AsRef<str>> fmt::Display for Quad<T> {
    fn fmt(&self, out: &mut fmt::Formatter<'_>) -> fmt::Result {
        write!(out, "{} {} {} ", self.subject, self.predicate, self.object)?;
        if let Some(graph) = &self.graph {
            write!(out, "{graph} ")?;
        }
        write!(out, ".")
    }
}
