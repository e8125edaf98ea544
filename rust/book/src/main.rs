//! `book`: makes target/book/index.html from the sources, and exits with 1 where a name leads nowhere or a quotation is in no paper.
//! `book documents`: makes the marked parts of the documents anew.
//! `book fingerprint FILE`: prints a paper's list, for rust/book/papers.

use book::contents::Book;
use book::kit::kit_folder;
use book::names::Library;
use book::reach::Names;
use book::types::Trees;
use std::path::Path;
use std::process::ExitCode;

fn main() -> ExitCode {
    let arguments: Vec<String> = std::env::args().skip(1).collect();
    let words: Vec<&str> = arguments.iter().map(String::as_str).collect();
    let done = match words[..] {
        [] => make_book(false),
        ["documents"] => make_book(true),
        ["fingerprint", file] => fingerprint(file),
        _ => {
            eprintln!("book [documents | fingerprint FILE]");
            return ExitCode::from(2);
        }
    };
    match done {
        Ok(true) => ExitCode::SUCCESS,
        Ok(false) => ExitCode::FAILURE,
        Err(error) => {
            eprintln!("{error}");
            ExitCode::FAILURE
        }
    }
}

/// Makes the book, and the documents where they are asked for; tells whether it has no fault.
fn make_book(documents: bool) -> std::io::Result<bool> {
    let own = Path::new(env!("CARGO_MANIFEST_DIR"));
    let root = own.join("../..").canonicalize()?;
    let library = Library::read(&root, &kit_folder())?;
    let trees = Trees::new(&library);
    let names = Names::new(&trees);
    let book = Book::gather(&names, own)?;
    if documents {
        for (path, is, should) in book.documents()? {
            if is != should {
                std::fs::write(path, should)?;
            }
        }
    }
    let page = root.join("target/book/index.html");
    std::fs::create_dir_all(root.join("target/book"))?;
    std::fs::write(&page, book.page())?;
    let stale = book.stale()?;
    for fault in book.faults.iter().chain(&stale) {
        println!("{fault}");
    }
    let unresolved = book.counts.untold + book.counts.lost;
    println!("{}: {} calls, {} definitions, {unresolved} names not resolved", page.display(), book.calls.len(), book.entries.len());
    Ok(book.faults.is_empty() && stale.is_empty())
}

fn fingerprint(file: &str) -> std::io::Result<bool> {
    print!("{}", book::papers::fingerprint(&std::fs::read_to_string(file)?));
    Ok(true)
}
