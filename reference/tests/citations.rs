//! What the pages cite is in the repository: the files that they link to, and the names that they have in backquotes.

use std::collections::BTreeSet;
use std::fs;
use std::path::{Path, PathBuf};

/// The most words of the README.
const README_WORDS: usize = 1200;
/// The most characters of a line.
const WIDTH: usize = 120;
/// Folders that are not looked into.
const BUILT: [&str; 3] = ["target", ".git", "out"];
/// Files that declare names beside their own.
const SOURCES: [&str; 5] = ["rs", "rt", "antt", "h", "c"];
/// How a line of comment begins: the words in it are no names.
const COMMENTS: [&str; 5] = ["//", "--", "/*", "*", "#include"];
/// Names in backquotes that are not declared here: commands, an option of `mount`, a variable, Rust's own.
const FOREIGN: [&str; 13] = [
    "AsMut",
    "AsRef",
    "CABINET_LIB_DIR",
    "Result",
    "ar",
    "as_chunks",
    "cargo",
    "cc",
    "copy_from_slice",
    "degraded",
    "no_std",
    "pkg-config",
    "rt",
];

fn root() -> PathBuf {
    Path::new(env!("CARGO_MANIFEST_DIR")).join("..")
}

/// The files below the folder.
fn files(folder: &Path) -> Vec<PathBuf> {
    let entries = fs::read_dir(folder).expect("the folder can be read");
    let paths = entries.map(|entry| entry.expect("an entry can be read").path());
    let is_ours = |path: &PathBuf| !BUILT.iter().any(|built| path.ends_with(built));
    let below = |path: PathBuf| if path.is_dir() { files(&path) } else { vec![path] };
    paths.filter(is_ours).flat_map(below).collect()
}

/// The pages with their texts.
fn pages() -> Vec<(PathBuf, String)> {
    let is_page = |path: &PathBuf| path.extension().is_some_and(|extension| extension == "md");
    let pages = files(&root()).into_iter().filter(is_page);
    pages
        .map(|path| (path.clone(), fs::read_to_string(path).expect("a page is text")))
        .collect()
}

/// The page without its blocks of code, in which backquotes and brackets are others'.
fn prose(text: &str) -> String {
    let unfenced = text.split("\n```").step_by(2);
    let lines = unfenced.flat_map(str::lines).filter(|line| !line.starts_with("    "));
    lines.flat_map(|line| [line, "\n"]).collect()
}

/// What stands in backquotes. A name that is broken at a line's end is not found, and there is none.
fn quoted(prose: &str) -> impl Iterator<Item = &str> {
    prose.split('`').skip(1).step_by(2)
}

/// Whether it is one name, as those of functions, lemmas, files and edits are.
fn is_name(quoted: &str) -> bool {
    let is_part = |c: char| c.is_ascii_alphanumeric() || c == '_' || c == '-';
    quoted.starts_with(|c: char| c.is_ascii_alphabetic()) && quoted.chars().all(is_part)
}

/// The words of a line before its first mark: where something is declared, its name is among them.
fn declared(line: &str) -> impl Iterator<Item = &str> {
    let line = line.trim_start();
    let is_comment = COMMENTS.iter().any(|comment| line.starts_with(comment));
    let head = line.split([':', '(', '{', ',', '=', ';']).next().unwrap_or_default();
    head.split_whitespace().filter(move |_| !is_comment)
}

/// The names that are ours: those in the path of every file that is no page, and those that the sources declare.
fn names() -> BTreeSet<String> {
    let mut names = BTreeSet::from(FOREIGN.map(str::to_string));
    for path in files(&root()) {
        let extension = path.extension().and_then(|e| e.to_str()).unwrap_or_default();
        if extension == "md" {
            continue;
        }
        let parts = path.iter().filter_map(|part| part.to_str());
        names.extend(parts.filter_map(|part| part.split('.').next()).map(str::to_string));
        if SOURCES.contains(&extension) {
            let text = fs::read_to_string(&path).expect("a source is text");
            names.extend(text.lines().flat_map(declared).map(str::to_string));
        }
    }
    names
}

/// The names that the page has in backquotes and nothing declares.
fn unknown(text: &str, names: &BTreeSet<String>) -> Vec<String> {
    let prose = prose(text);
    let cited = quoted(&prose).filter(|quoted| is_name(quoted));
    cited
        .filter(|name| !names.contains(*name))
        .map(str::to_string)
        .collect()
}

#[test]
fn every_link_leads_to_a_file() {
    for (path, text) in pages() {
        let folder = path.parent().expect("a page is in a folder");
        for link in prose(&text).split("](").skip(1) {
            let (target, _) = link.split_once(')').expect("a link ends");
            assert!(folder.join(target).exists(), "{}: {target}", path.display());
        }
    }
}

/// Landing notes are left out: what they tell of was there then.
#[test]
fn every_name_in_a_page_is_in_a_source() {
    let names = names();
    for (path, text) in pages() {
        if path.components().all(|part| part.as_os_str() != "landings") {
            assert_eq!(unknown(&text, &names), [""; 0], "{}", path.display());
        }
    }
}

/// Each of these is a name of ours but for a letter or an end, and most are words of some comment.
#[test]
fn a_name_that_is_nearly_ours_is_found_out() {
    let made_up = [
        "shortlists",
        "is_dirt",
        "finds_name",
        "demand_three",
        "cabinet_joins",
        "in_reach-seen",
    ];
    let page = made_up.map(|name| format!("`{name}` ")).concat();
    assert_eq!(unknown(&page, &names()), made_up);
}

#[test]
fn pages_keep_to_their_size() {
    for (path, text) in pages() {
        let long = text.lines().find(|line| line.chars().count() > WIDTH);
        assert_eq!(long, None, "{}", path.display());
    }
    let readme = fs::read_to_string(root().join("README.md")).expect("there is a README");
    assert!(readme.split_whitespace().count() <= README_WORDS);
}
