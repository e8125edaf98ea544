//! One run over a folder: every season file is tried and named.

use std::ffi::OsStr;
use std::fs;
use std::io::{self, Write};
use std::path::Path;

use commands::files::{put, read, Put};
use planner::{Desk, ROSTER_BYTES};

use crate::folder::Folder;
use crate::problem::Problem;
use crate::way::Way;

/// A file that was turned: its length before and after, and how it was put.
struct Done {
    from: usize,
    to: usize,
    put: Put,
}

/// Turns the files of a folder and tells of each. Gives a line for each that was
/// not turned; an error if nothing could be tried, or nothing more told.
pub fn run(
    way: Way,
    folder: &Path,
    target: &Path,
    out: &mut impl Write,
) -> Result<Vec<String>, String> {
    let named = |path: &Path, error: io::Error| format!("{}: {error}", path.display());
    let files = Folder::list(folder).map_err(|error| named(folder, error))?;
    fs::create_dir_all(target).map_err(|error| named(target, error))?;
    let mut run = Run {
        way,
        folder,
        target,
        out,
        tried: 0,
        of: files.count(),
        there: 0,
        left: Vec::new(),
    };
    let told = run.all(&files);
    told.map_err(|error| error.to_string())?;
    Ok(run.left)
}

struct Run<'a, W> {
    way: Way,
    folder: &'a Path,
    target: &'a Path,
    out: &'a mut W,
    /// How many files were tried so far, and of how many.
    tried: usize,
    of: usize,
    /// How many were in the target already.
    there: usize,
    /// A line for each that was not turned.
    left: Vec<String>,
}

impl<W: Write> Run<'_, W> {
    fn all(&mut self, files: &Folder) -> io::Result<()> {
        for (roster, plans) in &files.rosters {
            let turned = self.roster(roster);
            let desk = self.tell(roster, turned)?;
            for plan in plans {
                let turned = match &desk {
                    Some(desk) => self.plan(desk, plan),
                    None => Err(Problem::RosterNotTurned(roster.clone())),
                };
                self.tell(plan, turned)?;
            }
        }
        for plan in &files.plans_without_roster {
            self.tell::<()>(plan, Err(Problem::NoRoster))?;
        }
        for other in &files.passed_over {
            writeln!(self.out, "passed over: {}", other.display())?;
        }
        let turned = self.tried - self.there - self.left.len();
        writeln!(
            self.out,
            "{turned} turned, {} there already, {} not turned, {} passed over",
            self.there,
            self.left.len(),
            files.passed_over.len()
        )
    }

    /// Turns a roster; its plans are judged on the desk.
    fn roster(&self, name: &OsStr) -> Result<(Done, Desk), Problem> {
        let file = self.read(name)?;
        let turned = self.way.roster(&file).map_err(Problem::Refused)?;
        let done = self.put(name, &file, &turned.file)?;
        Ok((done, turned.desk))
    }

    fn plan(&self, desk: &Desk, name: &OsStr) -> Result<(Done, ()), Problem> {
        let file = self.read(name)?;
        let turned = self.way.plan(desk, &file).map_err(Problem::Refused)?;
        Ok((self.put(name, &file, &turned)?, ()))
    }

    fn read(&self, name: &OsStr) -> Result<Vec<u8>, Problem> {
        read(&self.folder.join(name), ROSTER_BYTES).map_err(Problem::NotRead)
    }

    fn put(&self, name: &OsStr, file: &[u8], turned: &[u8]) -> Result<Done, Problem> {
        Ok(Done {
            from: file.len(),
            to: turned.len(),
            put: put(&self.target.join(name), turned).map_err(Problem::NotPut)?,
        })
    }

    /// Tells what became of a file, and gives what else came of it.
    fn tell<T>(
        &mut self,
        name: &OsStr,
        turned: Result<(Done, T), Problem>,
    ) -> io::Result<Option<T>> {
        self.tried += 1;
        let name = name.display();
        write!(self.out, "{} of {}: {name} ", self.tried, self.of)?;
        match turned {
            Ok((Done { from, to, put }, more)) => {
                match put {
                    Put::Written => writeln!(self.out, "turned, {from} bytes to {to}")?,
                    Put::There => {
                        self.there += 1;
                        writeln!(self.out, "is there already, {from} bytes to {to}")?;
                    }
                }
                Ok(Some(more))
            }
            Err(problem) => {
                writeln!(self.out, "not turned, {problem}")?;
                self.left.push(format!("{name}: {problem}"));
                Ok(None)
            }
        }
    }
}
