//! Files that belong together, note records, row beats and, where they are asked for, row counts: whenever the program is killed, all are
//! old, all are new, or one is missing, and a rig that misses one refuses.

use crate::input::shown;
use crate::unnamed;
use std::fs::{self, File, OpenOptions};
use std::io::{self, ErrorKind, Write};
use std::os::unix::ffi::OsStrExt;
use std::path::{Path, PathBuf};

/// A file that is to be written: the option that names it, its path, and its bytes.
#[derive(Clone, Copy, Debug)]
pub struct Output<'a> {
    pub option: &'a str,
    pub path: &'a Path,
    pub bytes: &'a [u8],
}

impl Output<'_> {
    /// What the new file is called until it takes its name, where the file system has no files without a name. It is the same
    /// for each run, so that the next one takes away what is left of one that was killed.
    fn beside(&self) -> String {
        format!(".padcheck-{}", self.option.trim_start_matches('-'))
    }
}

/// What is done to one of the files, by its place.
#[derive(Clone, Copy, Debug)]
enum Step {
    Remove(usize),
    Name(usize),
}

/// What is done one after the other to give all new files their names. Between any two of these no new file stands beside an
/// old one: the old last one goes first, and the new last one comes last.
fn steps(files: usize) -> impl Iterator<Item = Step> {
    let removed = (0..files).rev().map(Step::Remove);
    removed.chain((0..files).map(Step::Name))
}

/// New files, whole, before they have their names.
pub struct Together<'a> {
    files: Vec<NewFile<'a>>,
}

impl<'a> Together<'a> {
    /// Writes all files into the folders of their names, or says why not.
    pub fn write(outputs: &[Output<'a>]) -> Result<Self, String> {
        let files = outputs.iter().map(NewFile::write);
        Ok(Self {
            files: files.collect::<Result<_, _>>()?,
        })
    }

    /// Gives all their names, in place of what had them before.
    pub fn take_names(mut self) -> Result<(), String> {
        steps(self.files.len()).try_for_each(|step| self.take(step))
    }

    fn take(&mut self, step: Step) -> Result<(), String> {
        match step {
            Step::Remove(place) => self.files[place].remove_old(),
            Step::Name(place) => self.files[place].take_name(),
        }
    }
}

/// A whole file in the folder of its name. It goes when it is let go of without having taken that.
struct NewFile<'a> {
    target: &'a Path,
    file: File,
    /// What it is called until then; none where it has no name.
    beside: Option<PathBuf>,
}

impl<'a> NewFile<'a> {
    /// Writes a new file, which has no name yet if that can be.
    fn write(output: &Output<'a>) -> Result<Self, String> {
        let target = output.path;
        let new = Self::unnamed(target).or_else(|_| Self::named(target, &output.beside()));
        let new = new.and_then(|mut new| {
            // Through to the disk, where a full one is noticed.
            new.file.write_all(output.bytes)?;
            new.file.sync_all()?;
            Ok(new)
        });
        new.map_err(|error| cannot_write(target, &error))
    }

    /// A new file without a name.
    fn unnamed(target: &'a Path) -> io::Result<Self> {
        let file = unnamed::create(folder(target))?;
        Ok(Self {
            target,
            file,
            beside: None,
        })
    }

    /// A new file of this name, in place of one that was left there.
    fn named(target: &'a Path, name: &str) -> io::Result<Self> {
        let beside = folder(target).join(name);
        gone(&beside)?;
        let mut options = OpenOptions::new();
        let file = options.write(true).create_new(true).open(&beside)?;
        Ok(Self {
            target,
            file,
            beside: Some(beside),
        })
    }

    /// Takes away the file that has the name now, if there is one.
    fn remove_old(&self) -> Result<(), String> {
        self.done(gone(self.target))
    }

    /// Gives the file its name, which no other has any more.
    fn take_name(&mut self) -> Result<(), String> {
        let taken = match &self.beside {
            None => unnamed::take_name(&self.file, self.target),
            Some(beside) => fs::rename(beside, self.target),
        };
        if taken.is_ok() {
            self.beside = None;
        }
        self.done(taken)
    }

    /// What came of a step. It goes through to the disk before the next one is taken, where the file system can do that.
    fn done(&self, step: io::Result<()>) -> Result<(), String> {
        step.map_err(|error| cannot_write(self.target, &error))?;
        let _ = File::open(folder(self.target)).and_then(|folder| folder.sync_all());
        Ok(())
    }
}

impl Drop for NewFile<'_> {
    fn drop(&mut self) {
        if let Some(beside) = &self.beside {
            let _ = fs::remove_file(beside);
        }
    }
}

fn cannot_write(path: &Path, error: &io::Error) -> String {
    format!("cannot write {}: {error}", shown(path))
}

/// Takes a file away, if there is one.
fn gone(path: &Path) -> io::Result<()> {
    match fs::remove_file(path) {
        Err(error) if error.kind() == ErrorKind::NotFound => Ok(()),
        removed => removed,
    }
}

/// Each output is to be named, and none may be a folder, a device or a link, nor the input, nor another one.
pub fn check_targets(input: &Path, outputs: &[Output]) -> Result<(), String> {
    for Output { option, path, .. } in outputs {
        if path.file_name().is_none() || path.as_os_str().as_bytes().ends_with(b"/") {
            return Err(format!("{option} names no file: `{}`", shown(path)));
        }
        match fs::symlink_metadata(path) {
            Ok(found) if !found.is_file() => {
                return Err(format!("{} is not a plain file", shown(path)));
            }
            Err(error) if error.kind() != ErrorKind::NotFound => {
                return Err(cannot_write(path, &error));
            }
            _ => {}
        }
    }
    for (number, output) in outputs.iter().enumerate() {
        let is_same = |other: &&Output| place(other.path) == place(output.path);
        if let Some(other) = outputs[..number].iter().find(is_same) {
            let (first, second) = (other.option, output.option);
            return Err(format!("{first} and {second} name the same file"));
        }
    }
    if outputs
        .iter()
        .any(|output| place(output.path) == place(input))
    {
        return Err(format!("{} is the input", shown(input)));
    }
    Ok(())
}

/// Where a path leads, also where there is no such file yet.
fn place(path: &Path) -> PathBuf {
    let folder = folder(path);
    let folder = fs::canonicalize(folder).unwrap_or_else(|_| folder.to_owned());
    let named = path
        .file_name()
        .map_or_else(|| folder.clone(), |name| folder.join(name));
    fs::canonicalize(&named).unwrap_or(named)
}

/// The folder that a file is in.
fn folder(path: &Path) -> &Path {
    match path.parent() {
        Some(folder) if folder != Path::new("") => folder,
        _ => Path::new("."),
    }
}

#[cfg(test)]
mod tests {
    use super::*;
    use std::{env, mem, process};

    #[test]
    fn a_path_without_a_folder_is_here() {
        assert_eq!(folder(Path::new("a")), Path::new("."));
        assert_eq!(folder(Path::new("a/b")), Path::new("a"));
        assert_eq!(
            place(Path::new("no-such-file")),
            place(Path::new("./no-such-file"))
        );
        assert_ne!(place(Path::new("no-such-file")), place(Path::new("other")));
    }

    /// An output without bytes.
    fn output<'a>(option: &'a str, path: &'a Path) -> Output<'a> {
        Output {
            option,
            path,
            bytes: b"",
        }
    }

    const OPTIONS: [&str; 3] = ["--notes", "--beats", "--rows"];

    #[test]
    fn an_output_needs_a_name() {
        let input = Path::new("in");
        let paths = ["a", "./b", "c"].map(Path::new);
        let named = |place: usize, path| {
            let mut paths = paths;
            paths[place] = path;
            let outputs = [0, 1, 2].map(|place| output(OPTIONS[place], paths[place]));
            check_targets(input, &outputs)
        };
        for (place, option) in OPTIONS.into_iter().enumerate() {
            for name in ["", "/", "..", "a/..", "out/"] {
                let message = named(place, Path::new(name)).unwrap_err();
                assert!(message.starts_with(&format!("{option} names no file")));
            }
            let message = named(place, Path::new("./in")).unwrap_err();
            assert_eq!(message, "in is the input");
            assert_eq!(named(place, paths[place]), Ok(()));
        }
        let same = named(2, Path::new("b")).unwrap_err();
        assert_eq!(same, "--beats and --rows name the same file");
        let same = named(2, Path::new("./a")).unwrap_err();
        assert_eq!(same, "--notes and --rows name the same file");
    }

    /// A folder of its own for a test, with names of 255 bytes for its files.
    struct Folder {
        path: PathBuf,
        files: Vec<PathBuf>,
    }

    impl Folder {
        fn new(name: &str, files: usize) -> Self {
            let path = env::temp_dir().join(format!("padcheck-{}-{name}", process::id()));
            fs::create_dir(&path).unwrap();
            let letters = ["n", "b", "r"].into_iter().take(files);
            let files = letters.map(|letter| path.join(letter.repeat(255)));
            Self {
                files: files.collect(),
                path,
            }
        }

        /// What the files hold.
        fn held(&self) -> Vec<Option<String>> {
            let files = self.files.iter();
            files.map(|path| fs::read_to_string(path).ok()).collect()
        }

        /// How many files there are.
        fn count(&self) -> usize {
            fs::read_dir(&self.path).unwrap().count()
        }
    }

    impl Drop for Folder {
        fn drop(&mut self) {
            fs::remove_dir_all(&self.path).unwrap();
        }
    }

    type New = for<'a> fn(&'a Path, &str) -> io::Result<NewFile<'a>>;

    /// The two ways in which a new file is made, whatever this file system has.
    const WAYS: [(&str, New); 2] = [
        ("unnamed", |target, _| NewFile::unnamed(target)),
        ("named", |target, name| NewFile::named(target, name)),
    ];

    /// All files written in one way.
    fn together<'a>(folder: &'a Folder, new: New, text: &str) -> Together<'a> {
        let files = folder.files.iter().zip(OPTIONS).map(|(target, option)| {
            let mut new = new(target, &output(option, target).beside()).unwrap();
            new.file.write_all(text.as_bytes()).unwrap();
            new
        });
        Together {
            files: files.collect(),
        }
    }

    #[test]
    fn between_any_two_steps_all_are_old_or_new_or_one_is_missing() {
        for (way, new) in WAYS {
            for files in [2, 3] {
                let all = |text: &str| vec![Some(text.to_owned()); files];
                for done in 0..=steps(files).count() {
                    let folder = Folder::new(&format!("{way}-{files}-{done}"), files);
                    together(&folder, new, "old").take_names().unwrap();
                    assert_eq!((folder.held(), folder.count()), (all("old"), files));
                    let mut killed = together(&folder, new, "new");
                    for step in steps(files).take(done) {
                        killed.take(step).unwrap();
                    }
                    // Where a program is killed, nothing is let go of.
                    mem::forget(killed);
                    let held = folder.held();
                    let whole = [all("old"), all("new")].contains(&held);
                    assert!(whole || held.contains(&None), "{way} {done}: {held:?}");
                    // The next run leaves its files and no other.
                    together(&folder, new, "next").take_names().unwrap();
                    assert_eq!((folder.held(), folder.count()), (all("next"), files));
                }
            }
        }
    }

    #[test]
    fn the_last_file_goes_first_and_comes_last() {
        let said = |files| {
            steps(files)
                .map(|step| format!("{step:?}"))
                .collect::<Vec<_>>()
        };
        let want = ["Remove(1)", "Remove(0)", "Name(0)", "Name(1)"];
        assert_eq!(said(2), want);
        let (removed, named) = (
            ["Remove(2)", "Remove(1)", "Remove(0)"],
            ["Name(0)", "Name(1)", "Name(2)"],
        );
        assert_eq!(said(3), [removed, named].concat());
    }

    #[test]
    fn files_that_are_let_go_of_leave_nothing() {
        for (way, new) in WAYS {
            let folder = Folder::new(&format!("{way}-let-go"), 3);
            drop(together(&folder, new, "new"));
            assert_eq!(folder.count(), 0, "{way}");
        }
    }

    #[test]
    fn whole_files_take_their_names() {
        let folder = Folder::new("whole", 3);
        let new = [0, 1, 2].map(|place| Output {
            option: OPTIONS[place],
            path: &folder.files[place],
            bytes: b"new",
        });
        Together::write(&new).unwrap().take_names().unwrap();
        let all = vec![Some(String::from("new")); 3];
        assert_eq!((folder.held(), folder.count()), (all.clone(), 3));
        let none = folder.path.join("no/file");
        let bad = [
            output("--notes", &folder.files[0]),
            output("--beats", &none),
        ];
        let message = Together::write(&bad).err().unwrap();
        assert!(message.ends_with("No such file or directory (os error 2)"));
        assert_eq!((folder.held(), folder.count()), (all, 3));
    }
}
