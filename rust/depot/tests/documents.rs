//! README.md and docs/DEPOT.md as a reader would try them: every file that they show is written, every command that they show
//! is run, and prints what stands there. And the program's own pages: each command has one, with an example.

use std::fs;
use std::os::unix::fs::symlink;
use std::path::{Path, PathBuf};
use std::process::Command;

/// A block of a document: the words behind its fence, and its text.
struct Block {
    kind: String,
    text: String,
}

fn root() -> PathBuf {
    Path::new(env!("CARGO_MANIFEST_DIR")).join("../..").canonicalize().expect("the repository")
}

fn blocks(document: &str) -> Vec<Block> {
    let text = fs::read_to_string(root().join(document)).expect("a document");
    let parts: Vec<&str> = text.split("```").collect();
    let inside = parts.iter().skip(1).step_by(2);
    inside
        .filter_map(|part| part.split_once('\n'))
        .map(|(kind, text)| Block { kind: kind.into(), text: text.into() })
        .collect()
}

/// A folder that looks like the repository's root, with the program under its name there.
struct Place(PathBuf);

impl Place {
    fn new(name: &str) -> Place {
        let place = std::env::temp_dir().join(format!("depot-{name}-{}", std::process::id()));
        let _ = fs::remove_dir_all(&place);
        fs::create_dir(&place).expect("a folder");
        for folder in ["examples", "crates", "docs"] {
            symlink(root().join(folder), place.join(folder)).expect("a link");
        }
        symlink(env!("CARGO_BIN_EXE_depot"), place.join("depot")).expect("a link");
        Place(place)
    }

    /// What a command prints, errors with the rest.
    fn run(&self, command: &str) -> String {
        let out = Command::new("sh").current_dir(&self.0).args(["-c", &format!("({command}) 2>&1")]).output();
        String::from_utf8(out.expect("a shell").stdout).expect("text")
    }
}

impl Drop for Place {
    fn drop(&mut self) {
        let _ = fs::remove_dir_all(&self.0);
    }
}

/// Tries a document; how many files and commands it has.
fn try_out(document: &str, place: &Place) -> (usize, usize) {
    let (mut files, mut commands) = (0, 0);
    for block in blocks(document) {
        if let Some(file) = block.kind.strip_prefix("depot ") {
            fs::write(place.0.join(file), &block.text).expect("a file");
            files += 1;
        }
        if block.kind == "console" {
            for asked in block.text.split("$ ").skip(1) {
                let (command, printed) = asked.split_once('\n').expect("a command and what it prints");
                assert_eq!(place.run(command), printed, "{document}: {command}");
                commands += 1;
            }
        }
    }
    (files, commands)
}

#[test]
fn readme() {
    let place = Place::new("readme");
    let (files, commands) = try_out("README.md", &place);
    assert!(files >= 1 && commands >= 3, "{files} files, {commands} commands");
    let shown = fs::read_to_string(place.0.join("pilot.depot")).expect("the pilot depot");
    let stored = fs::read_to_string(root().join("examples/depots/pilot.depot")).expect("the stored one");
    assert_eq!(shown, stored, "README.md shows the stored depot");
}

#[test]
fn depot_page() {
    let (files, commands) = try_out("docs/DEPOT.md", &Place::new("page"));
    assert!(files >= 1 && commands >= 8, "{files} files, {commands} commands");
}

/// The pictures of README.md are there, and the commands beside them make such.
#[test]
fn pictures() {
    let place = Place::new("pictures");
    let readme = fs::read_to_string(root().join("README.md")).expect("README.md");
    for picture in ["docs/depot-plan.png", "docs/depot-page.png"] {
        assert!(readme.contains(&format!("({picture})")), "{picture}");
        assert!(fs::read(root().join(picture)).expect("a picture").starts_with(b"\x89PNG"), "{picture}");
    }
    for (command, file, begins) in [
        ("./depot plan examples/depots/night.depot --svg plan.svg", "plan.svg", "<?xml"),
        ("./depot page examples/depots/night.depot -o night.html", "night.html", "<!DOCTYPE html>"),
    ] {
        assert!(readme.contains(&format!("`{command}`")), "{command}");
        place.run(command);
        assert!(fs::read_to_string(place.0.join(file)).expect("a picture").starts_with(begins), "{command}");
    }
}

/// The stored examples are good, and what they expect is met.
#[test]
fn examples() {
    let place = Place::new("examples");
    for entry in fs::read_dir(root().join("examples/depots")).expect("the examples") {
        let name = entry.expect("an entry").file_name().into_string().expect("a name");
        assert!(place.run(&format!("./depot check examples/depots/{name}")).contains(": good."), "{name}");
    }
    assert!(place.run("./depot test examples/depots/night.depot && echo met").ends_with("met\n"));
}

/// The book of the pilot depot is the stored one, but for its second lane, which a file in names has no need of, and for
/// the place of its fact.
#[test]
fn the_pilot_book() {
    let place = Place::new("pilot");
    let told = place.run("./depot book examples/depots/pilot.depot");
    let mut own: Vec<&str> = told.lines().collect();
    let stored = place.run("cat crates/books/data/pilot.book");
    let mut stored: Vec<&str> = stored.lines().collect();
    assert_eq!((own[0], stored[0]), ("010101020201", "010101020202"));
    own[1..].sort_unstable();
    stored[1..].sort_unstable();
    assert_eq!(own[1..], stored[1..]);
}
