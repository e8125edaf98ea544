//! The book of this project: made whole, without a name that leads nowhere, and changes that must not pass unnoticed.

use book::contents::Book;
use book::kit::kit_folder;
use book::names::Library;
use book::reach::Names;
use book::types::Trees;
use std::collections::HashSet;
use std::path::{Path, PathBuf};
use std::process::Command;

fn root() -> PathBuf {
    let own = Path::new(env!("CARGO_MANIFEST_DIR"));
    own.join("../..").canonicalize().expect("the project's folder")
}

/// The program fails on a name that leads nowhere, on a quotation that is in no paper, and on a document that is stale.
#[test]
fn the_program_makes_a_whole_book() {
    let run = Command::new(env!("CARGO_BIN_EXE_book")).output().expect("it runs");
    assert!(run.status.success(), "{}", String::from_utf8_lossy(&run.stdout));
    let page = std::fs::read_to_string(root().join("target/book/index.html")).expect("the book");
    assert!(page.contains("<b>0 cannot be resolved.</b>"));
    assert!(!page.contains("<script") && !page.contains("http"), "a page without scripts and network");
    let after = |mark: &str| -> HashSet<&str> { page.split(mark).skip(1).filter_map(|p| p.split('"').next()).collect() };
    let places = after("id=\"");
    let lost: Vec<&str> = after("href=\"#").into_iter().filter(|l| !places.contains(l)).collect();
    assert_eq!(lost, Vec::<&str>::new());
}

/// Changes to the sources, each of which must be noticed.
const CHANGES: [(&str, &str, &str); 5] = [
    ("crates/model/specs/Vote.antt", "pub node_vote :", "pub votes_of_node :"),
    ("crates/model/specs/Plans.antt", "pub is_strong :", "pub is_plain :"),
    ("crates/model/specs/Vote.antt", "the least sum over valid", "the greatest sum over valid"),
    ("crates/theory_votes/src/lib.rt", "The laws of votes", "Some laws of votes"),
    ("crates/verdict/src/lib.rt", "pub fn weigh_paired(", "pub fn weigh_twice("),
];

fn changed(path: &Path, text: String) -> String {
    let here = CHANGES.iter().filter(|c| path.ends_with(c.0));
    here.fold(text, |text, (file, old, new)| {
        assert!(text.contains(old), "{file} has no {old}");
        text.replace(old, new)
    })
}

/// Changes are noticed, and the rest of the book is what it was. The sources are read once for all of it.
#[test]
fn what_changes_is_noticed() {
    let library = Library::read_changed(&root(), &kit_folder(), changed).expect("the project is read");
    let trees = Trees::new(&library);
    let names = Names::new(&trees);
    let book = Book::gather(&names, Path::new(env!("CARGO_MANIFEST_DIR"))).expect("the book is gathered");
    let noticed = |what: &str| assert!(book.faults.iter().any(|f| f.contains(what)), "{what} passed unnoticed");
    noticed("Vote.node_vote leads nowhere");
    noticed("Plans.is_strong leads nowhere");
    noticed("greatest sum over valid pairings.\" is in no paper");
    noticed("verdict::weigh_paired leads nowhere");
    let stale = book.stale().expect("the documents are read");
    for document in ["ARCHITECTURE", "WAYS"] {
        assert!(stale.iter().any(|s| s.contains(document)), "{document} passed unnoticed");
    }
    a_contract_comes_to_what_its_call_can_answer(&book);
    edits_and_rows_stand_at_their_definitions(&book);
}

fn a_contract_comes_to_what_its_call_can_answer(book: &Book) {
    let comes = |call: &str, decl: &str| {
        let decl = book.library().named(decl).expect("it is declared");
        book.call(call).expect("a public call").comes_to.contains(&decl)
    };
    assert!(comes("Desk::blocking", "model/Blocking.top_blocking"));
    assert!(!comes("Desk::blocking", "model/Finder.finder_of"));
    assert!(comes("Desk::find", "model/Finder.finder_of"));
    assert!(!comes("Desk::load_roster", "model/Vote.vote"));
    assert!(comes("Desk::compare", "model/Vote.vote"));
}

fn edits_and_rows_stand_at_their_definitions(book: &Book) {
    let decl = book.library().named("model/Vote.rank_vote").expect("it is declared");
    assert!(book.rows.iter().any(|r| r.definitions.contains(&decl)));
    let decl = book.library().named("model/Vote.leastℤ").expect("it is declared");
    let edits = book.edits_of.get(&decl).into_iter().flatten();
    assert!(edits.map(|&n| book.edits[n].name.as_str()).any(|e| e == "model/best-with-best"));
    let below = book.edits_below(book.call("Desk::load_roster").expect("a call"));
    assert!(below.iter().any(|e| book.edits[e.1].name == "desk_loads/roster-load-ignored"));
}
