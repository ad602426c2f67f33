//! The sessions in the documents are true: the program answers so, and the corpus has their lines, so that the product
//! is held to them too.
//!
//! A table's row of the form | `line` | `answer` | ... is a line that is typed and its answer. Such rows one after the
//! other are a session.

use reference::mistakes::{Mistake, Rules};
use reference::{corpus, driver};

/// The pages that have sessions.
const PAGES: [(&str, &str); 3] = [
    ("README.md", include_str!("../../README.md")),
    ("docs/CHANGES.md", include_str!("../../docs/CHANGES.md")),
    ("docs/METHOD.md", include_str!("../../docs/METHOD.md")),
];

/// The name of a column for the answers before a request. An empty cell says that it was the same.
const BEFORE: &str = "it answered before";

/// The sections whose sessions have that column, and what was otherwise in the rules before.
const CHANGES: [(&str, &str, Mistake); 2] = [
    (
        "docs/CHANGES.md",
        "A pulled disk that is current, asked to join: 11 where it was 10",
        Mistake::JoinReachBeforeMember,
    ),
    (
        "docs/CHANGES.md",
        "A read after a loss moves, takes a supply, and can be cut",
        Mistake::ReadStays,
    ),
];

/// A session, and where it stands.
struct Session {
    page: &'static str,
    section: &'static str,
    rows: Vec<Row>,
}

/// A line that is typed and its answer, and the answer before if the table has that column.
#[derive(Clone, Copy)]
struct Row {
    line: &'static str,
    answer: &'static str,
    before: Option<&'static str>,
}

/// The sessions of all pages.
fn sessions() -> Vec<Session> {
    let mut sessions = Vec::new();
    for (page, text) in PAGES {
        let of_page = sessions_of(page, text);
        assert!(!of_page.is_empty(), "{page} has no session");
        sessions.extend(of_page);
    }
    sessions
}

fn sessions_of(page: &'static str, text: &'static str) -> Vec<Session> {
    let lines: Vec<&str> = text.lines().collect();
    let (mut section, mut sessions) = ("", Vec::new());
    for table in lines.chunk_by(|a, b| a.starts_with('|') && b.starts_with('|')) {
        section = table[0].strip_prefix("## ").unwrap_or(section);
        let session = |rows| Session { page, section, rows };
        sessions.extend(runs(table).into_iter().map(session));
    }
    sessions
}

/// The rows of sessions in a table, each session's apart. A line that stands alone is a table without any.
fn runs(table: &[&'static str]) -> Vec<Vec<Row>> {
    let before = cells(table[0]).iter().position(|name| *name == BEFORE);
    let rows: Vec<Option<Row>> = table.iter().map(|line| row(line, before)).collect();
    let runs = rows.split(Option::is_none).filter(|run| !run.is_empty());
    runs.map(|run| run.iter().flatten().copied().collect()).collect()
}

/// The row, if its first two cells are code. The column of the answer before is known from the table's head.
fn row(line: &'static str, before: Option<usize>) -> Option<Row> {
    let cells = cells(line);
    let (line, answer) = (code(cells.first()?)?, code(cells.get(1)?)?);
    let answer_before = |column: usize| match cells[column] {
        "" => answer,
        cell => code(cell).expect("an answer before is code"),
    };
    Some(Row {
        line,
        answer,
        before: before.map(answer_before),
    })
}

/// The cells of a table's row. Any other line has none.
fn cells(line: &'static str) -> Vec<&'static str> {
    let rest = line.strip_prefix('|').into_iter();
    rest.flat_map(|rest| rest.split('|')).map(str::trim).collect()
}

/// What stands in a cell that is one code span.
fn code(cell: &'static str) -> Option<&'static str> {
    let inside = cell.strip_prefix('`')?.strip_suffix('`')?;
    (!inside.contains('`')).then_some(inside)
}

impl Session {
    /// The lines that are typed, each with its line feed.
    fn typed(&self) -> String {
        self.rows.iter().map(|row| format!("{}\n", row.line)).collect()
    }

    /// Checks that by these rules the program gives these answers.
    fn is_answered(&self, rules: Rules, answers: Vec<&str>) {
        let output = driver::answers(rules, self.typed().as_bytes());
        let output = String::from_utf8(output).expect("answers are ASCII");
        let given: Vec<&str> = output.lines().collect();
        assert_eq!(given, answers, "{}, {}", self.page, self.section);
    }
}

#[test]
fn each_session_starts_with_a_fresh() {
    for Session { page, rows, .. } in sessions() {
        let first = rows[0].line;
        assert!(first.starts_with("f "), "{page}: {first}");
    }
}

#[test]
fn the_program_answers_as_the_pages_say() {
    for session in sessions() {
        let answers = session.rows.iter().map(|row| row.answer);
        session.is_answered(Rules::PAPER, answers.collect());
    }
}

#[test]
fn the_corpus_has_each_session() {
    let corpus = corpus::input();
    for session in sessions() {
        let typed = format!("\n{}", session.typed());
        let mut places = corpus.windows(typed.len());
        let is_there = places.any(|place| place == typed.as_bytes());
        assert!(is_there, "{}, {}", session.page, session.section);
    }
}

/// A section's column holds by its own rules; each section that has the column is listed, and each that is listed has
/// it.
#[test]
fn the_program_answered_before_as_the_pages_say() {
    let mut told = Vec::new();
    for session in sessions() {
        let place = (session.page, session.section);
        let before: Option<Vec<&str>> = session.rows.iter().map(|row| row.before).collect();
        let Some(before) = before else { continue };
        let listed = CHANGES.iter().find(|(page, section, _)| (*page, *section) == place);
        let (_, _, mistake) = listed.unwrap_or_else(|| panic!("what were the rules before? {place:?}"));
        session.is_answered(Rules::with(*mistake), before);
        told.push(place);
    }
    for (page, section, _) in CHANGES {
        assert!(
            told.contains(&(page, section)),
            "{page} has no session before: {section}"
        );
    }
}
