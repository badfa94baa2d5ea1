//! Prints the triples of the page on standard input as Turtle: `turtle BASE <page.html`.

use rdfax::{Format, Options, Page};
use std::error::Error;
use std::io::{self, Read};
use std::{env, process};

fn print(base: &str) -> Result<(), Box<dyn Error>> {
    let mut page = Page::extract(base, Format::Turtle, &Options::default())?;
    let mut room = vec![0; 65_536];
    loop {
        let count = io::stdin().lock().read(&mut room)?;
        if count == 0 {
            break;
        }
        page.feed(&room[..count])?;
    }
    Ok(page.finish()?.write_to(&mut io::stdout().lock())?)
}

fn main() {
    if let Err(error) = print(&env::args().nth(1).unwrap_or_default()) {
        eprintln!("{error}");
        process::exit(1);
    }
}
