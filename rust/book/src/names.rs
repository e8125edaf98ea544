//! The library of all files, and what a name of a module is: declared there, or handed on by its `use` lines, as the checker reads them.

use crate::kit::{files_below, libraries, parts, STD};
use crate::lex;
use crate::rattle::{self, Function};
use crate::source::{self, Decl, File, Sort};
use std::cell::RefCell;
use std::collections::HashMap;
use std::path::{Path, PathBuf};
use std::rc::Rc;

/// What a name leads to.
#[derive(Clone, Copy, PartialEq, Eq, Hash, Debug, PartialOrd, Ord)]
pub enum Target {
    Decl(usize),
    /// a constructor or a field of a declaration
    Member(usize, usize),
    /// built into the checker, by its number among those
    Built(usize),
}

impl Target {
    /// The declaration that it is or belongs to.
    pub fn decl(self) -> Option<usize> {
        match self {
            Target::Decl(d) | Target::Member(d, _) => Some(d),
            Target::Built(_) => None,
        }
    }
}

/// Names of the prelude, which stands open in every file.
const PRELUDE: &[&str] =
    &["IsProp", "IsSet", "⊥", "absurd", "¬◌", "Dec", "yes", "no", "Discrete", "∥◌∥₁", "∣◌∣₁", "squash₁", "Unit", "tt", "Id", "J", "Path", "Level"];

/// Words of a contract: a lent slice as it is, before the call and after it, and what the call returns.
pub const CONTRACT_WORDS: &[&str] = &["now", "old", "new", "entry", "exit", "result"];

/// The names that stand in a file, and the parts of operators among them.
#[derive(Default)]
pub struct Scope {
    pub names: HashMap<String, Target>,
    /// a part, and the operators that have it
    pub parts: HashMap<String, Vec<String>>,
    /// names of modules
    pub modules: HashMap<String, String>,
}

/// A `use` leaf that leads nowhere.
pub struct Dangling {
    pub place: String,
    pub name: String,
}

/// A change to files as they are read.
type Change = dyn Fn(&Path, String) -> String;

/// All files of the project, and those of the kit that they lead to.
pub struct Library {
    pub root: PathBuf,
    pub kit: PathBuf,
    pub files: Vec<File>,
    pub decls: Vec<Decl>,
    pub functions: Vec<Function>,
    paths: HashMap<String, usize>,
    /// the types of the code, by crate and name; those of the kit by crate and `file.Name`, since several of a name are in a crate
    declared: HashMap<(String, String), usize>,
    libraries: HashMap<String, PathBuf>,
    built: RefCell<Vec<String>>,
    scopes: RefCell<HashMap<usize, Rc<Scope>>>,
    /// what becomes of a file's text when it is read
    change: Box<Change>,
}

impl Library {
    /// Reads the crates below `root` and what of the kit they name.
    pub fn read(root: &Path, kit: &Path) -> std::io::Result<Library> {
        Library::read_changed(root, kit, |_, text| text)
    }

    /// The same with files changed as they are read, for tests.
    pub fn read_changed(root: &Path, kit: &Path, change: impl Fn(&Path, String) -> String + 'static) -> std::io::Result<Library> {
        let mut library = Library {
            root: root.to_path_buf(),
            kit: kit.to_path_buf(),
            files: Vec::new(),
            decls: Vec::new(),
            functions: Vec::new(),
            paths: HashMap::new(),
            declared: HashMap::new(),
            libraries: libraries(kit),
            built: RefCell::new(Vec::new()),
            scopes: RefCell::new(HashMap::new()),
            change: Box::new(change),
        };
        for name in library.crates()? {
            let folder = root.join("crates").join(&name);
            library.read_crate(&name, &folder)?;
        }
        library.reach_kit();
        Ok(library)
    }

    /// The crates, sorted.
    pub fn crates(&self) -> std::io::Result<Vec<String>> {
        let mut names: Vec<String> = std::fs::read_dir(self.root.join("crates"))?
            .flatten()
            .filter(|e| e.path().is_dir())
            .map(|e| e.file_name().to_string_lossy().into_owned())
            .collect();
        names.sort();
        Ok(names)
    }

    /// Whether a crate's proofs are those of its functions, each in a folder. Without functions they are theorems, as its specs have them.
    pub fn proves_functions(&self, name: &str) -> bool {
        let inside = std::fs::read_dir(self.root.join("crates").join(name).join("proofs"));
        inside.is_ok_and(|mut all| all.any(|e| e.is_ok_and(|e| e.path().is_dir())))
    }

    fn read_crate(&mut self, name: &str, folder: &Path) -> std::io::Result<()> {
        let parts = if self.proves_functions(name) { &["specs"][..] } else { &["specs", "proofs"][..] };
        for part in parts {
            let base = folder.join(part);
            for place in files_below(&base, "antt") {
                let inner = place.strip_prefix(&base).unwrap_or(&place).with_extension("");
                let inner = inner.to_string_lossy().replace('/', ".");
                let path = match inner.as_str() {
                    "Lib" => format!("Rattle.{name}.{part}"),
                    _ => format!("Rattle.{name}.{part}.{inner}"),
                };
                self.read_file(&path, place)?;
            }
        }
        for place in files_below(&folder.join("src"), "rt") {
            let text = (self.change)(&place, std::fs::read_to_string(&place)?);
            let number = self.files.len();
            let first = self.decls.len();
            let path = format!("code:{name}");
            let (file, functions) = rattle::read(&path, place, text, number, &mut self.decls);
            for decl in first..self.decls.len() {
                self.declared.insert((name.to_string(), self.decls[decl].name.clone()), decl);
            }
            self.files.push(file);
            self.functions.extend(functions);
        }
        Ok(())
    }

    fn read_file(&mut self, path: &str, place: PathBuf) -> std::io::Result<usize> {
        let text = (self.change)(&place, std::fs::read_to_string(&place)?);
        let number = self.files.len();
        let file = source::read(path, place, text, number, &mut self.decls);
        self.files.push(file);
        self.paths.insert(path.to_string(), number);
        Ok(number)
    }

    /// Where a module stands: in a crate of the project or of the kit, or in a library of the kit.
    fn place(&self, path: &str) -> Option<PathBuf> {
        let (folder, inner) = match path.strip_prefix("Rattle.") {
            Some(rest) => {
                let (owner, rest) = rest.split_once('.')?;
                let (part, inner) = rest.split_once('.').unwrap_or((rest, "Lib"));
                let own = self.root.join("crates").join(owner);
                let owner = if own.is_dir() { own } else { self.kit.join("rattle").join(owner) };
                (owner.join(part), inner)
            }
            None => {
                let (library, inner) = path.split_once('.').unwrap_or((path, "Lib"));
                (self.libraries.get(library)?.clone(), inner)
            }
        };
        let place = folder.join(inner.replace('.', "/") + ".antt");
        place.is_file().then_some(place)
    }

    /// The file of a module, read now if it is one of the kit's, or of the proofs. A module that another passes on by a `pub use` is known by both paths.
    fn module(&mut self, path: &str) -> Option<usize> {
        if let Some(&file) = self.paths.get(path) {
            return Some(file);
        }
        if let Some(place) = self.place(path) {
            return self.read_file(path, place).ok();
        }
        let (above, last) = path.rsplit_once('.')?;
        if above == "Rattle" || above == "Prim" {
            return None;
        }
        let above = self.module(above)?;
        let on = self.files[above].uses.iter().find(|u| u.name.is_none() && u.here == last)?.path.clone();
        let file = if on == path { None } else { self.module(&on) }?;
        self.paths.insert(path.to_string(), file);
        Some(file)
    }

    /// Reads the file of the kit's code that a type is declared in, for the module that the compiler makes of the type.
    fn read_kit_type(&mut self, path: &str) {
        let Some((owner, of, _)) = declared_in(path).filter(|d| self.kit_type(d.0, d.1).is_none()) else {
            return;
        };
        let Some((module, name)) = of.rsplit_once('.') else {
            return;
        };
        for part in parts(owner) {
            let place = self.kit.join("rattle").join(part).join("src").join(module.replace('.', "/"));
            let Some(place) = [place.with_extension("rt"), place.join("mod.rt")].into_iter().find(|p| p.is_file()) else {
                continue;
            };
            let Ok(text) = std::fs::read_to_string(&place) else {
                continue;
            };
            let first = self.decls.len();
            let (file, _) = rattle::read(&format!("code:{part}"), place, text, self.files.len(), &mut self.decls);
            self.files.push(file);
            if let Some(decl) = (first..self.decls.len()).find(|&d| self.decls[d].name == name) {
                self.declared.insert((part.to_string(), of.to_string()), decl);
                return;
            }
        }
    }

    /// A type of the kit's code, which its crate declares or hands on.
    fn kit_type(&self, owner: &str, of: &str) -> Option<usize> {
        parts(owner).into_iter().find_map(|part| self.declared(part, of))
    }

    /// Reads what the `use` lines of the crates name, as far as names are handed on.
    fn reach_kit(&mut self) {
        let mut queue: Vec<(String, Option<String>)> = self.files.iter().flat_map(|f| f.uses.iter().map(|u| (u.path.clone(), u.name.clone()))).collect();
        let mut seen = std::collections::HashSet::new();
        while let Some((path, name)) = queue.pop() {
            if !seen.insert((path.clone(), name.clone())) || path.starts_with("code:") {
                continue;
            }
            self.read_kit_type(&path);
            let Some(file) = self.module(&path) else {
                continue;
            };
            let Some(name) = name else { continue };
            let on = self.files[file].uses.iter().find(|u| u.here == name && u.name.is_some());
            queue.extend(on.map(|u| (u.path.clone(), u.name.clone())));
            for child in &self.files[file].globs {
                queue.push((format!("{path}.{child}"), Some(name.clone())));
            }
        }
    }

    /// The crate that a file belongs to, or none if it is the kit's.
    pub fn crate_of(&self, file: usize) -> Option<&str> {
        let place = self.files[file].place.strip_prefix(self.root.join("crates")).ok()?;
        place.iter().next()?.to_str()
    }

    /// A file's place for a reader: below the project or below the kit.
    pub fn shown_place(&self, file: usize) -> String {
        let place = &self.files[file].place;
        match place.strip_prefix(&self.root) {
            Ok(inner) => inner.to_string_lossy().into_owned(),
            Err(_) => {
                let canonical = place.canonicalize().unwrap_or_else(|_| place.clone());
                let inner = canonical.strip_prefix(&self.kit).unwrap_or(&canonical);
                format!("kit/{}", inner.to_string_lossy())
            }
        }
    }

    /// The name of something that is built into the checker.
    pub fn built_name(&self, number: usize) -> String {
        self.built.borrow()[number].clone()
    }

    pub fn built(&self, name: &str) -> Target {
        let mut all = self.built.borrow_mut();
        let known = all.iter().position(|n| n == name);
        Target::Built(known.unwrap_or_else(|| {
            all.push(name.to_string());
            all.len() - 1
        }))
    }

    /// A type of the code.
    pub fn declared(&self, name: &str, of: &str) -> Option<usize> {
        self.declared.get(&(name.to_string(), of.to_string())).copied()
    }

    /// What a name in the code of a file is: a type of its crate, one that a `use` line brings, or one that stands open in every file, as `Result`.
    pub fn in_code(&self, file: usize, name: &str) -> Option<Target> {
        let own = self.declared(self.crate_of(file).unwrap_or(""), name);
        let used = || self.find(&self.files[file].uses.iter().find(|u| u.here == name)?.path, name);
        let open = || self.find(&format!("Rattle.{STD}.specs.Prelude"), name).filter(|t| t.decl().is_some_and(|d| self.decls[d].sort.is_code()));
        own.map(Target::Decl).or_else(used).or_else(open)
    }

    /// What a name of a module is.
    pub fn find(&self, path: &str, name: &str) -> Option<Target> {
        self.find_from(path, name, 0)
    }

    fn find_from(&self, path: &str, name: &str, depth: usize) -> Option<Target> {
        if path == "Prim" || path.starts_with("Prim.") {
            return Some(self.built(&format!("{path}.{name}")));
        }
        if let Some(of) = path.strip_prefix("code:") {
            return self.declared(of, name).map(Target::Decl);
        }
        if let Some((owner, of, variants)) = declared_in(path) {
            return self.find_declared(owner, of, variants, name);
        }
        let file = &self.files[*self.paths.get(path)?];
        if let Some(own) = self.own(file, name) {
            return Some(own);
        }
        if depth > 8 {
            return None;
        }
        let on = file.uses.iter().find(|u| u.here == name && u.name.is_some());
        if let Some(Some(there)) = on.map(|u| u.name.as_ref()) {
            return self.find_from(&on?.path, there, depth + 1);
        }
        let children = file.globs.iter();
        children.filter_map(|c| self.find_from(&format!("{path}.{c}"), name, depth + 1)).next()
    }

    /// A type of the code, or one of its variants.
    fn find_declared(&self, owner: &str, of: &str, variants: bool, name: &str) -> Option<Target> {
        let decl = self.declared(owner, of.rsplit('.').next()?).or_else(|| self.kit_type(owner, of))?;
        if !variants {
            return (self.decls[decl].name == name).then_some(Target::Decl(decl));
        }
        self.member(decl, name).map(|m| Target::Member(decl, m))
    }

    /// A field or constructor by its name.
    pub fn member(&self, decl: usize, name: &str) -> Option<usize> {
        let name = lex::plain(name);
        self.decls[decl].members.iter().position(|m| m.name == name)
    }

    /// What a file declares under a name: a declaration, or a constructor.
    fn own(&self, file: &File, name: &str) -> Option<Target> {
        let mut found = None;
        for &d in &file.decls {
            let decl = &self.decls[d];
            if decl.name == name {
                return Some(Target::Decl(d));
            }
            if decl.sort == Sort::Data && found.is_none() {
                found = self.member(d, name).map(|m| Target::Member(d, m));
            }
        }
        found
    }

    /// The names that stand in a file.
    pub fn scope(&self, number: usize) -> Rc<Scope> {
        if let Some(scope) = self.scopes.borrow().get(&number) {
            return scope.clone();
        }
        let scope = Rc::new(self.make_scope(&self.files[number]));
        self.scopes.borrow_mut().insert(number, scope.clone());
        scope
    }

    fn make_scope(&self, file: &File) -> Scope {
        let mut scope = Scope::default();
        for name in PRELUDE {
            scope.names.insert(name.to_string(), self.built(&format!("Prim.{name}")));
        }
        for leaf in &file.uses {
            match &leaf.name {
                None => {
                    scope.modules.insert(leaf.here.clone(), leaf.path.clone());
                }
                Some(name) => {
                    if let Some(target) = self.find(&leaf.path, name) {
                        scope.names.insert(leaf.here.clone(), target);
                    }
                }
            }
        }
        for &d in &file.decls {
            let decl = &self.decls[d];
            if decl.sort == Sort::Data {
                for (m, member) in decl.members.iter().enumerate() {
                    scope.names.insert(member.name.clone(), Target::Member(d, m));
                }
            }
        }
        for &d in &file.decls {
            scope.names.insert(self.decls[d].name.clone(), Target::Decl(d));
        }
        let operators: Vec<String> = scope.names.keys().filter(|n| n.contains('◌')).cloned().collect();
        for operator in operators {
            for part in lex::parts(&operator) {
                scope.parts.entry(part.to_string()).or_default().push(operator.clone());
            }
        }
        scope
    }

    /// The `use` leaves of the project's files that lead nowhere.
    pub fn dangling(&self) -> Vec<Dangling> {
        let mut found = Vec::new();
        for (number, file) in self.files.iter().enumerate() {
            if self.crate_of(number).is_none() {
                continue;
            }
            for leaf in file.uses.iter().filter(|u| !u.path.starts_with("code:")) {
                let lost = match &leaf.name {
                    Some(name) => self.find(&leaf.path, name).is_none(),
                    None => false,
                };
                if lost {
                    found.push(Dangling {
                        place: format!("{}:{}", self.shown_place(number), leaf.line),
                        name: format!("{}.{}", leaf.path, leaf.name.as_deref().unwrap_or("")),
                    });
                }
            }
        }
        found
    }

    /// A declaration by `crate/File.name`.
    pub fn named(&self, told: &str) -> Option<usize> {
        let (place, name) = told.split_once('.')?;
        let (owner, file) = place.split_once('/')?;
        let in_part = |part: &&str| self.find(&format!("Rattle.{owner}.{part}.{file}"), name);
        ["specs", "proofs"].iter().find_map(in_part).and_then(Target::decl)
    }

    /// `crate/File.name` of a declaration, for a reader.
    pub fn full_name(&self, decl: usize) -> String {
        let d = &self.decls[decl];
        let file = &self.files[d.file];
        match (self.crate_of(d.file), d.sort) {
            (_, Sort::Struct | Sort::Enum) => format!("{}::{}", file.path.trim_start_matches("code:"), d.name),
            (Some(owner), _) => {
                let inner = file.path.rsplit('.').next().unwrap_or("");
                format!("{owner}/{inner}.{}", d.name)
            }
            (None, _) => format!("{}.{}", file.path, d.name),
        }
    }
}

/// The module that the compiler makes of a type of the code, `Rattle.CRATE.specs.declared.FILE.TYPE`: the crate, the type with its file, and whether the
/// module is that of its variants.
fn declared_in(path: &str) -> Option<(&str, &str, bool)> {
    let (owner, of) = path.strip_prefix("Rattle.")?.split_once(".specs.declared.")?;
    let variants = of.strip_suffix(".TheVariants");
    Some((owner, variants.unwrap_or(of), variants.is_some()))
}
