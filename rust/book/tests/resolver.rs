//! Names resolved in a small project of its own: what is bound, what a file declares, what its `use` lines bring, and whose field is taken.

use book::code::{Callee, Graph};
use book::names::{Library, Target};
use book::reach::Names;
use book::types::Trees;
use book::walk::{self, Link};
use std::path::PathBuf;

const BASE: &str =
    "pub data Bool : Type 0 where\n  true : Bool\n  false : Bool\n\npub data List (A : Type 0) : Type 0 where\n  [] : List A\n  ◌∷◌ : A → List A → List A\n\n\
    abbrev pub map : {A B : Type 0} → (A → B) → List A → List B\nmap f [] = []\nmap f (x ∷ xs) = f x ∷ map f xs\n\n\
    pub record Pair : Type 0 where\n  pub first : Bool\n  pub second : Bool\n\npub record Other : Type 0 where\n  pub first : Bool\n";

const USER: &str = "use Rattle.base.specs.Base as B\nuse Rattle.std.specs.Prelude.{kept, Result}\nuse Rattle.std.specs.declared.result.Result.TheVariants.{Ok, Err}\nuse Rattle.std.specs.Seen.{Shown}\nuse Rattle.base.specs.Base.{Bool, true, false, List, [], ◌∷◌, map, Pair, Other}\n\n\
    abbrev pub firsts : List Pair → List Bool\nfirsts ps = map (λ p. p.first) ps\n\n\
    abbrev pub made : List Other\nmade = record { first = true } ∷ []\n\n\
    abbrev pub swapped : Pair → Pair\nswapped p = let q = p in record { first = q.second; second = q.first }\n\n\
    abbrev pub by : Bool → Bool\nby B.true = false\nby false = missing\n\n\
    module _ (p : Pair) where\n  abbrev pub inside : Bool\n  inside = p.first\n\nabbrev pub outside : Pair → Bool\noutside = inside\n\n\
    abbrev pub taken : Pair → Bool\ntaken p = kept (swapped p).second p.first\n\n\
    abbrev pub handed : Shown → Bool\nhanded s = s.held\n\n\
    abbrev pub opened : Result Pair Other → Bool\nopened (Ok p) = p.first\nopened (Err o) = o.first\n";

/// Methods of one name, and a closure that is called.
const CODE: &str = "pub struct A {\n    pub n: u8,\n}\nimpl A {\n    pub fn go(self) -> u8 {\n        self.n\n    }\n}\n\
    pub struct B {\n    pub n: u8,\n}\nimpl B {\n    pub fn go(self) -> u8 {\n        self.n\n    }\n}\n\
    fn made() -> B {\n    B { n: 0 }\n}\n\
    pub fn by_parameter(a: A) -> u8 {\n    a.go()\n}\n\
    pub fn by_call() -> u8 {\n    let b = made();\n    b.go()\n}\n\
    pub fn by_closure<F: Fn(u8) -> u8>(f: F) -> u8 {\n    f(1)\n}\n\
    pub fn untold() -> u8 {\n    c.go()\n}\n";

/// A kit whose prelude hands on a name, a module, and a type of the code.
const KIT: [(&str, &str); 5] = [
    ("rattle/core/src/result.rt", "pub enum Result<T, E> {\n    Ok(T),\n    Err(E),\n}\n"),
    ("rattle/std/specs/Lib.antt", "pub mod Prelude\npub use lib.Shown as Seen\n"),
    ("rattle/std/specs/Prelude.antt", "pub use lib.Kept.{kept}\npub use Rattle.core.specs.declared.result.Result.{Result}\n"),
    ("rattle/logic/Lib/Kept.antt", "pub kept : ℕ → ℕ → ℕ\nkept a b = a\n"),
    ("rattle/logic/Lib/Shown.antt", "pub record Shown : Type 0 where\n  pub held : ℕ\n"),
];

/// The small project in a folder of its own.
fn project(name: &str) -> PathBuf {
    let root = std::env::temp_dir().join(format!("book-{name}-{}", std::process::id()));
    for (owner, file, text) in [("base", "Base", BASE), ("user", "User", USER)] {
        let folder = root.join("crates").join(owner).join("specs");
        std::fs::create_dir_all(&folder).expect("a folder");
        std::fs::write(folder.join(format!("{file}.antt")), text).expect("a file");
    }
    let code = ("crates/user/src/lib.rt", CODE);
    let project = ("rattle/logic/antt-project.json", "{\n  \"name\": \"logic\",\n  \"mounts\": {\n    \"lib\": \"Lib\"\n  }\n}\n");
    let own = ("rattle/logic/Lib/antt-project.json", "{ \"name\": \"lib\", \"src\": \".\" }\n");
    for (file, text) in KIT.iter().chain(&[code, project, own]) {
        let path = root.join(file);
        std::fs::create_dir_all(path.parent().expect("a folder")).expect("a folder");
        std::fs::write(path, text).expect("a file");
    }
    root
}

/// The names of a definition, each with what it leads to in words.
fn told(library: &Library, name: &str) -> Vec<String> {
    let decl = library.named(name).expect("it is declared");
    let trees = Trees::new(library);
    let links = walk::declaration(&trees, decl);
    let file = &library.files[library.decls[decl].file];
    let tell = |link: &Link| match link {
        Link::To(Target::Decl(d)) => library.full_name(*d),
        Link::To(Target::Member(d, m)) => format!("{}:{}", library.full_name(*d), library.decls[*d].members[*m].name),
        Link::Bound => "bound".to_string(),
        Link::Untold => "untold".to_string(),
        _ => "lost".to_string(),
    };
    links.words.iter().map(|(&k, link)| format!("{}={}", file.word(k), tell(link))).collect()
}

#[test]
fn names_lead_to_their_declarations() {
    let root = project("names");
    let library = Library::read(&root, &root).expect("it is read");
    let has = |name: &str, words: &[&str]| {
        let told = told(&library, name);
        for word in words {
            assert!(told.iter().any(|t| t == word), "{name}: {word} is not among {told:?}");
        }
    };
    has("user/User.firsts", &["map=base/Base.map", "p=bound", "ps=bound", "first=base/Base.Pair:first"]);
    has("user/User.made", &["first=base/Base.Other:first", "∷=base/Base.List:◌∷◌", "true=base/Base.Bool:true"]);
    has("user/User.swapped", &["second=base/Base.Pair:second", "first=base/Base.Pair:first", "q=bound"]);
    has("user/User.by", &["B=base/Base.Bool:true", "true=base/Base.Bool:true", "missing=lost"]);
    has("user/User.inside", &["p=bound", "first=base/Base.Pair:first"]);
    has("user/User.outside", &["inside=user/User.inside"]);
    has("user/User.taken", &["kept=lib.Kept.kept", "second=base/Base.Pair:second", "first=base/Base.Pair:first"]);
    has("user/User.handed", &["Shown=lib.Shown.Shown", "held=lib.Shown.Shown:held"]);
    has("user/User.opened", &["Result=core::Result", "Ok=core::Result:Ok", "first=base/Base.Pair:first", "first=base/Base.Other:first"]);
    std::fs::remove_dir_all(root).expect("it is taken away");
}

#[test]
fn what_is_reached_and_what_is_come_to() {
    let root = project("reach");
    let library = Library::read(&root, &root).expect("it is read");
    let trees = Trees::new(&library);
    let names = Names::new(&trees);
    let start = library.named("user/User.outside").expect("it is declared");
    let reached: Vec<String> = names.closure([start]).into_iter().map(|d| library.full_name(d)).collect();
    for name in ["user/User.inside", "base/Base.Pair", "base/Base.Bool"] {
        assert!(reached.iter().any(|r| r == name), "{name} is not among {reached:?}");
    }
    assert!(!reached.iter().any(|r| r == "base/Base.List"));
    assert!(library.dangling().is_empty());
    std::fs::remove_dir_all(root).expect("it is taken away");
}

#[test]
fn a_method_is_the_one_of_its_receiver() {
    let root = project("methods");
    let library = Library::read(&root, &root).expect("it is read");
    let graph = Graph::of(&library);
    let called = |name: &str| -> Vec<&str> {
        let function = library.functions.iter().position(|f| f.name == name).expect("it is declared");
        let own = graph.calls[function].iter().filter_map(|c| match c {
            Callee::Own(f) => Some(library.functions[*f].name.as_str()),
            Callee::Kit(_) => None,
        });
        own.collect()
    };
    assert_eq!(called("by_parameter"), ["A::go"]);
    assert_eq!(called("by_call"), ["made", "B::go"]);
    assert!(called("by_closure").is_empty());
    assert_eq!(graph.lost.len(), 1, "{:?}", graph.lost);
    std::fs::remove_dir_all(root).expect("it is taken away");
}
