//! Does the jobs of a list, as `pages.c` beside the C library does: `pages LIST`.
//!
//! Each line of the list is a job of nine words with tabs between them: extract, items or check; html or xhtml; nquads,
//! turtle, nested, jsonld or quads; the base; the name of the graph; the context file; the number of the first node; the
//! page's file; and how many bytes a piece has. `-` stands for none. Of each job a line is written, with its status, the length
//! of its text and how many blank nodes it has or, where it was refused, the fault; and behind it the text. Quads are written
//! as N-Quads.

use rdfax::{Error, Finished, Format, Options, Page, Syntax};
use std::io::Write;
use std::{env, fs, io};

/// A word of the list, where it isn't `-`.
fn given(word: &str) -> Option<&str> {
    (word != "-").then_some(word)
}

fn no_such(word: &str) -> io::Error {
    io::Error::new(io::ErrorKind::InvalidInput, word.to_owned())
}

fn number<T: std::str::FromStr>(word: &str) -> io::Result<T> {
    word.parse().map_err(|_| no_such(word))
}

fn syntax_of(word: &str) -> io::Result<Syntax> {
    match word {
        "html" => Ok(Syntax::Html),
        "xhtml" => Ok(Syntax::Xhtml),
        other => Err(no_such(other)),
    }
}

/// The format of a text; none where quads are wanted.
fn format_of(word: &str) -> io::Result<Option<Format>> {
    match word {
        "nquads" => Ok(Some(Format::NQuads)),
        "turtle" => Ok(Some(Format::Turtle)),
        "nested" => Ok(Some(Format::Nested)),
        "jsonld" => Ok(Some(Format::JsonLd)),
        "quads" => Ok(None),
        other => Err(no_such(other)),
    }
}

fn open(words: &[&str]) -> io::Result<Result<Page, Error>> {
    let syntax = syntax_of(words[1])?;
    let base = given(words[3]).unwrap_or("");
    let context = given(words[5]).map(fs::read).transpose()?;
    let options = Options { syntax, graph: given(words[4]), context: context.as_deref(), first_node: number(words[6])? };
    Ok(match (words[0], format_of(words[2])?) {
        ("items", _) => Page::items(base, syntax),
        ("check", _) => Page::check(syntax, options.context),
        (_, Some(format)) => Page::extract(base, format, &options),
        (_, None) => Page::quads(base, &options),
    })
}

/// The text of a page, or its quads as one.
fn text_of(mut page: Finished) -> Result<(u64, String), Error> {
    let nodes = page.nodes();
    if page.quad_count() == 0 {
        return Ok((nodes, page.text()?));
    }
    let mut text = String::new();
    for quad in page.into_quads() {
        text += &format!("{}\n", quad?);
    }
    Ok((nodes, text))
}

fn answer(words: &[&str]) -> io::Result<Result<(u64, String), Error>> {
    let bytes = fs::read(words[7])?;
    let size = number(words[8])?;
    Ok(open(words)?.and_then(|mut page| {
        bytes.chunks(size).try_for_each(|piece| page.feed(piece))?;
        page.finish().and_then(text_of)
    }))
}

fn main() -> io::Result<()> {
    let list = fs::read_to_string(env::args().nth(1).ok_or_else(|| no_such("pages LIST"))?)?;
    let mut out = io::stdout().lock();
    for line in list.lines() {
        let words: Vec<&str> = line.split('\t').collect();
        match answer(&words)? {
            Ok((nodes, text)) => write!(out, "0 {} {nodes}\n{text}", text.len())?,
            Err(Error::Refused(fault)) => writeln!(out, "1 0 {fault}")?,
            Err(Error::Usage) => writeln!(out, "2 0")?,
            Err(Error::NoMemory) => writeln!(out, "5 0")?,
            Err(Error::BadContext) => writeln!(out, "6 0")?,
            Err(other) => return Err(io::Error::new(io::ErrorKind::Other, other)),
        }
    }
    Ok(())
}
