//! The ways of calls: each call in the code led to its function, in a small project of its own, and the page that stands in docs/WAYS.md, which another
//! test compares with the sources.

use book::code::{Callee, Graph};
use book::names::Library;
use std::collections::HashSet;
use std::path::{Path, PathBuf};

const SHOP: &str = "// a shop\nmod shelf;\nuse goods::Kind;\n\npub struct Till {\n    pub sum: u8,\n}\n\n\
    impl Till {\n    pub fn add(self, n: u8) -> Till { self }\n    pub fn new() -> Till { none() }\n}\n\n\
    fn none() -> Till { none() }\n\n";
const SHELF: &str = "pub fn first(n: u8) -> u8 { n }\n";
const GOODS: &str = "pub enum Kind {\n    Loose(u8),\n    Last,\n}\n\npub fn price(n: u8) -> u8 { n }\n";
const BYTES: &str = "pub fn copy(n: u8) -> u8 { n }\nfn hidden(n: u8) -> u8 { n }\n";

/// The small project and a kit with one library, in a folder of its own; `body` is what `sell` does.
fn graph(name: &str, body: &str) -> (Library, Graph) {
    let root = std::env::temp_dir().join(format!("ways-{name}-{}", std::process::id()));
    let sell = format!("{SHOP}pub fn sell(x: Till, n: u8) -> u8\n    ensures {{ promised(result) }}\n{{\n{body}\n}}\n");
    for (file, text) in
        [("crates/shop/src/lib.rt", sell.as_str()), ("crates/shop/src/shelf.rt", SHELF), ("crates/goods/src/lib.rt", GOODS), ("rattle/bytes/src/lib.rt", BYTES)]
    {
        let path = root.join(file);
        std::fs::create_dir_all(path.parent().expect("a folder")).expect("a folder");
        std::fs::write(path, text).expect("a file");
    }
    let library = Library::read(&root, &root).expect("it is read");
    let graph = Graph::of(&library);
    std::fs::remove_dir_all(root).expect("it is taken away");
    (library, graph)
}

/// What `sell` calls, in words.
fn called(name: &str, body: &str) -> (Vec<String>, Vec<String>) {
    let (library, graph) = graph(name, body);
    let sell = library.functions.iter().position(|f| f.name == "sell").expect("a function");
    let tell = |callee: &Callee| match callee {
        Callee::Own(f) => library.functions[*f].name.clone(),
        Callee::Kit(name) => name.clone(),
    };
    (graph.calls[sell].iter().map(tell).collect(), graph.lost)
}

#[test]
fn calls_lead_to_functions_in_the_order_of_the_text() {
    let body = "    // gone(n)\n    let t = Till::new();\n    let k = Kind::Loose(goods::price(shelf::first(n)));\n    \
        while (n < 3)\n        invariant { kept(n) }\n        decreases { left(n) }\n    {\n        let s = \"lost(n)\";\n        shelf::first(n);\n    }\n    \
        let part = &s[0..sell(x, n)];\n    if (part.len() < 3) { return bytes::copy(n); }\n    \
        match k {\n        goods::Kind::Loose(m) => goods::price(m),\n        Kind::Last => x.add(n).sum,\n    }\n    none();";
    let (calls, lost) = called("order", body);
    assert_eq!(lost, Vec::<String>::new());
    assert_eq!(calls, ["Till::new", "first", "price", "sell", "bytes::copy", "Till::add", "none"]);
}

#[test]
fn a_call_that_leads_nowhere_is_an_error() {
    let wrong = [
        "missing(n)",
        "price(n)",
        "first(n)",
        "goods::missing(n)",
        "elsewhere::price(n)",
        "shelf::missing(n)",
        "bytes::missing(n)",
        "bytes::hidden(n)",
        "Till::missing(n)",
        "Kind::Missing(n)",
        "Other::Loose(n)",
        "goods::Other::Loose(n)",
    ];
    for (n, call) in wrong.iter().enumerate() {
        let (calls, lost) = called(&format!("lost-{n}"), call);
        let name = call.split('(').next().expect("a name");
        assert_eq!((calls.len(), lost), (0, vec![format!("crates/shop/src/lib.rt:19: {name} leads nowhere")]));
    }
    let (_, lost) = called("lost-method", "x.missing(n)");
    assert_eq!(lost, ["crates/shop/src/lib.rt:19: missing leads nowhere"]);
}

fn root() -> PathBuf {
    Path::new(env!("CARGO_MANIFEST_DIR")).join("../..").canonicalize().expect("the project's folder")
}

fn page() -> String {
    std::fs::read_to_string(root().join("docs/WAYS.md")).expect("the page")
}

/// The calls that have a way, by the headings of the page.
fn headings(page: &str) -> HashSet<&str> {
    page.lines().filter_map(|l| l.strip_prefix("### ")).flat_map(|l| l.split(", ")).collect()
}

/// The names that stand behind a mark at the beginning of a line of some files.
fn named(folder: &str, mark: &str) -> Vec<String> {
    let files = std::fs::read_dir(root().join(folder)).expect("a folder").flatten();
    let texts = files.map(|f| std::fs::read_to_string(f.path()).expect("a file"));
    let lines = texts.flat_map(|t| t.lines().filter_map(|l| l.strip_prefix(mark).map(str::to_string)).collect::<Vec<_>>());
    lines.map(|l| l.split(['(', '<']).next().unwrap_or("").to_string()).collect()
}

#[test]
fn every_public_call_has_a_way() {
    let page = page();
    let ways = headings(&page);
    let mut calls = named("crates/abi/src", "pub extern \"C\" fn ");
    calls.extend(named("crates/desk/src", "    pub fn ").iter().map(|c| format!("Desk::{c}")));
    for owner in ["answers", "roster", "seasons", "profile", "districts", "routes", "program"] {
        calls.extend(named(&format!("crates/{owner}/src"), "pub fn ").iter().map(|c| format!("{owner}::{c}")));
    }
    calls.push("crew::main".to_string());
    assert!(calls.len() > 50, "{}", calls.len());
    let without: Vec<&String> = calls.iter().filter(|c| !ways.contains(c.as_str())).collect();
    assert_eq!(without, Vec::<&String>::new());
}

/// An arrow leads to a way of the page, and its link to that way's heading.
#[test]
fn arrows_lead_to_ways() {
    let page = page();
    let titles: Vec<&str> = page.lines().filter_map(|l| l.strip_prefix("### ")).collect();
    let place = |title: &str| title.to_lowercase().replace([':', ','], "").replace(' ', "-");
    let arrows: Vec<(&str, &str)> = page.split("→ [`").skip(1).filter_map(|a| a.split(')').next()?.split_once("`](#")).collect();
    assert!(arrows.len() > 50);
    for (name, link) in arrows {
        let way = titles.iter().find(|t| t.split(", ").any(|n| n == name));
        assert_eq!(way.map(|t| place(t)), Some(link.to_string()), "{name}");
    }
    let places: HashSet<String> = titles.iter().map(|t| place(t)).collect();
    assert_eq!(places.len(), titles.len());
}

/// One way, read from the code by hand.
#[test]
fn the_way_of_a_verdict() {
    let page = page();
    let way = page.split("\n### Desk::judge\n").nth(1).and_then(|p| p.split("\n### ").next()).expect("its way");
    let lines = way.lines().filter(|l| l.trim_start().starts_with("- "));
    let bare = |l: &str| l.split("`: ").next().unwrap_or("").replace(['`', '[', ']'], "").split("(#").next().unwrap_or("").to_string();
    let expected = [
        "- desk_queries::judge",
        "  - → desk_files::loaded",
        "  - verdict::weigh_paired",
        "    - → verdict::weighed",
        "    - vote_pairings::plan_pairings",
        "      - vote_pairings::side_pairings",
        "        - vote_own_ranks::own_ranks",
        "          - vote_own_ranks::gathered",
        "            - std::rev, vote_own_ranks::counted",
        "            - vote_own_ranks::put_rank",
        "              - vote_own_ranks::insert",
        "        - vote_own_ranks::shared_ranks",
        "          - vote_own_ranks::gathered (above)",
        "        - → vote_pairings::side_pairs",
        "  - desk_queries::rival_length",
        "    - desk_files::plan_length",
    ];
    assert_eq!(lines.map(bare).collect::<Vec<_>>(), expected);
}
