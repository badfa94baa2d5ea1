//! What no example shows.

use rdfax::{Error, Fault, Format, Kind, Options, Page, Syntax, Term};
use std::thread;

const BASE: &str = "http://h.example/d";
const OFFERS: &str = r#"<html vocab="http://schema.org/"><p property="offers" typeof="Offer"><b property="price">1</b></p></html>"#;

fn finished(mut page: Page, bytes: &str) -> Result<rdfax::Finished, Error> {
    page.feed(bytes.as_bytes())?;
    page.finish()
}

fn options() -> Options<'static> {
    Options::default()
}

fn fault(error: Option<Error>) -> Fault {
    match error {
        Some(Error::Refused(fault)) => fault,
        other => panic!("{other:?}"),
    }
}

#[test]
fn errors_are_the_fields() {
    let refused = rdfax::check("<html></p></html>").unwrap_err();
    assert_eq!(refused.to_string(), "refused: Mismatch at byte 9 in token 6");
    let boxed: Box<dyn std::error::Error + Send + Sync> = refused.into();
    assert_eq!(boxed.downcast_ref(), Some(&refused));
    let usage = |options: &Options<'_>, format| Page::extract(BASE, format, options).err();
    assert_eq!(Page::extract("d", Format::NQuads, &options()).err(), Some(Error::Usage));
    assert_eq!(Page::items("", Syntax::Html).err(), Some(Error::Usage));
    assert_eq!(usage(&Options { graph: Some(""), ..options() }, Format::NQuads), Some(Error::Usage));
    for format in [Format::Turtle, Format::Nested, Format::JsonLd] {
        assert_eq!(usage(&Options { graph: Some(BASE), ..options() }, format), Some(Error::Usage));
    }
    assert_eq!(usage(&Options { first_node: (1 << 63) + 1, ..options() }, Format::NQuads), Some(Error::Usage));
    assert_eq!(usage(&Options { context: Some(b""), ..options() }, Format::NQuads), Some(Error::BadContext));
    assert_eq!(Page::check(Syntax::Html, Some(b"[]")).err(), Some(Error::BadContext));
}

#[test]
fn a_fault_comes_again() {
    let mut page = Page::check(Syntax::Html, None).unwrap();
    let first = page.feed(b"<html></p>").err();
    assert_eq!(fault(first).kind, Kind::Mismatch);
    assert_eq!(page.feed(b"</html>").err(), first);
    assert_eq!(page.finish().err(), first);
}

#[test]
fn each_kind_has_a_sentence() {
    for kind in Kind::ALL {
        assert!(kind.sentence().ends_with('.') && !kind.sentence().contains("later"), "{kind}");
    }
    assert!(Kind::Other(25).sentence().contains("later"));
}

#[test]
fn pieces_and_syntax() {
    let page = "<html><p/></html>";
    assert_eq!(fault(rdfax::check(page).err()).kind, Kind::SelfClosed);
    let mut checked = Page::check(Syntax::Xhtml, None).unwrap();
    for byte in page.bytes() {
        checked.feed(&[byte]).unwrap();
    }
    checked.feed(b"").unwrap();
    assert_eq!(checked.finish().unwrap().text().unwrap(), "ok\n");
}

#[test]
fn quads_are_the_lines() {
    let named = Options { graph: Some("http://h.example/g"), first_node: 7, ..options() };
    let text = finished(Page::extract(BASE, Format::NQuads, &named).unwrap(), OFFERS).unwrap().text().unwrap();
    let mut quads = finished(Page::quads(BASE, &named).unwrap(), OFFERS).unwrap().into_quads();
    assert_eq!((quads.len(), quads.nodes()), (text.lines().count(), 1));
    let quads = quads.collect::<Result<Vec<_>, _>>().unwrap();
    let lines: Vec<String> = quads.iter().map(ToString::to_string).collect();
    assert_eq!(lines, text.lines().collect::<Vec<_>>());
    assert!(quads.iter().any(|quad| quad.object == Term::Blank("b7".to_owned())));
}

#[test]
fn a_context_file_holds() {
    let context = Options { context: Some(br#"{"prefixes":{"e":"http://v.example/"}}"#), ..options() };
    let page = r#"<html><p property="e:n">x</p></html>"#;
    let text = finished(Page::extract(BASE, Format::NQuads, &context).unwrap(), page).unwrap().text().unwrap();
    assert_eq!(text, "<http://h.example/d> <http://v.example/n> \"x\" .\n");
}

#[test]
fn pages_on_threads() {
    let mut page = Page::extract(BASE, Format::NQuads, &options()).unwrap();
    page.feed(&OFFERS.as_bytes()[..40]).unwrap();
    let moved = thread::spawn(move || {
        page.feed(&OFFERS.as_bytes()[40..])?;
        page.finish()?.text()
    });
    let own = rdfax::extract(OFFERS, BASE, Format::NQuads);
    assert_eq!(moved.join().unwrap(), own);
}
