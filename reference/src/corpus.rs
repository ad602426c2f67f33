//! The corpus of the cabinet program: lines that show each rule, each cut and each kind of bad line. A heading such as
//! `# H13` is itself a bad line, and gives 99.

use crate::mistakes::Rules;
use crate::program::Program;
use crate::session::Session;

/// A supply that suffices for every list.
const AMPLE: u16 = 65535;

/// The input of the corpus.
pub fn input() -> Vec<u8> {
    let mut corpus = Corpus::default();
    corpus.before_the_first_fresh();
    corpus.papers_examples();
    for n in 1..=8 {
        corpus.cuts_with(n);
    }
    corpus.refusals();
    corpus.refused_joins();
    corpus.reads();
    corpus.lost_and_returned();
    corpus.fresh_in_and_out_of_range();
    corpus.bad_lines();
    corpus.bad_reads();
    corpus.long_lines();
    corpus.random_histories();
    corpus.last_line();
    corpus.bytes
}

/// The lines so far.
#[derive(Default)]
struct Corpus {
    bytes: Vec<u8>,
}

/// A call that is cut at every supply, after lines that prepare it.
struct Scene {
    name: String,
    setup: Vec<String>,
    /// The call without its supply.
    call: String,
    /// The disks that the setup loses and the aftermath returns.
    lost: Vec<u16>,
    disks: u16,
    /// The blocks to be read afterwards.
    shown: Vec<u16>,
}

impl Corpus {
    fn line(&mut self, line: impl AsRef<[u8]>) {
        self.bytes.extend(line.as_ref());
        self.bytes.push(b'\n');
    }

    fn lines(&mut self, lines: &[impl AsRef<[u8]>]) {
        for line in lines {
            self.line(line);
        }
    }

    fn heading(&mut self, words: &str) {
        self.line(format!("# {words}"));
    }

    /// "Before the first good `f` the state is all zero and calls give 1." A good `f` can't be undone, so the corpus
    /// starts with these.
    fn before_the_first_fresh(&mut self) {
        let calls = [
            "x 0", "r 0", "c", "w 0 7 99", "j 0 99", "q 99", "s 99", "x 9", "w 70 1 0",
        ];
        let reads = [
            "g 0 99",
            "g 0 0",
            "g 0 65535",
            "g 1 1",
            "g 63 99",
            "g 64 0",
            "g 65535 99",
        ];
        let sections: [(&str, &[&str]); 3] = [
            ("calls before the first good f", &[]),
            (
                "refused f before the first good one",
                &["f 0 1", "f 9 0", "f 1 0", "f 1 65", "f 65535 65535", "f 0 0"],
            ),
            (
                "bad lines before the first good f",
                &["", "f", "f 1", "f 1 1 1", "w 0 256 1", "g 0", "z"],
            ),
        ];
        for (heading, first) in sections {
            self.heading(heading);
            self.lines(first);
            self.lines(&calls);
            self.lines(&reads);
        }
    }

    /// The paper's session, H13 and H14.
    fn papers_examples(&mut self) {
        self.heading("the paper's session");
        let session = ["f 3 8", "x 2", "w 0 7 99", "c", "s 99", "r 2", "j 2 99", "g 0 99"];
        self.lines(&session);
        self.heading("H13");
        self.lines(&["f 1 1", "w 0 5 1", "g 0 99", "s 99", "g 0 99"]);
        self.lines(&["f 1 1", "w 0 5 2", "g 0 99", "c", "s 99", "g 0 99"]);
        self.heading("H14");
        self.lines(&["f 2 1", "w 0 5 3", "g 0 99", "s 99", "g 0 99", "x 0", "g 0 99"]);
    }

    /// Every call with a list, cut at every supply.
    fn cuts_with(&mut self, n: u16) {
        for scene in scenes(n) {
            self.heading(&format!("n = {n}: {}", scene.name));
            for supply in 0..=scene.length() {
                self.cut(&scene, supply);
            }
        }
    }

    /// One cut, and what is there afterwards. At each second supply the lost disks come back before the restart, at
    /// the others a restart without them comes first.
    fn cut(&mut self, scene: &Scene, supply: u16) {
        for line in &scene.setup {
            self.line(line);
        }
        self.line(format!("{} {supply}", scene.call));
        if supply % 2 == 1 {
            self.line(format!("s {supply}"));
            self.line(format!("s {AMPLE}"));
            self.line(read(scene.shown[0]));
        }
        for disk in &scene.lost {
            self.line(format!("r {disk}"));
        }
        if supply % 2 == 1 {
            self.line("c");
        }
        if supply % 4 == 2 {
            self.line(format!("s {}", supply / 4));
        }
        self.line(format!("s {AMPLE}"));
        self.show(scene);
    }

    /// Reads the blocks on each disk that is named: a read is from the lowest member in reach, so the disks are lost
    /// one after another.
    fn show(&mut self, scene: &Scene) {
        for disk in 0..scene.disks {
            for block in &scene.shown {
                self.line(read(*block));
            }
            if disk + 1 < scene.disks {
                self.line(format!("x {disk}"));
            }
        }
    }

    /// Refusals of each call, alone and in pairs, with the state kept.
    fn refusals(&mut self) {
        for n in [1, 3, 8] {
            self.heading(&format!("refusals while running, n = {n}"));
            self.line(format!("f {n} 9"));
            self.lines(&["w 8 200 999", "g 9 0", "g 65535 99", "w 9 1 0", "w 65535 1 9"]);
            self.lines(&["j 0 0", "j 9 0", "j 65535 9", "s 0", "s 99", "x 8", "r 256", "x 65535"]);
            self.lines(&["x 0", "j 0 9", "j 0 0", "g 8 99", "q 0", "r 0", "g 8 99", "s 99"]);
            self.heading("no member in reach");
            for disk in 0..n {
                self.line(format!("x {disk}"));
            }
            self.lines(&["g 0 0", "g 0 9", "g 9 9", "w 0 1 9", "w 9 1 9", "q 0", "q 99"]);
            self.lines(&["j 0 9", "j 8 9"]);
            self.line(format!("r {}", n - 1));
            self.lines(&["g 8 99", "q 0", "q 1", "q 0"]);
            self.heading("refusals while stopped");
            self.lines(&["c", "c", "g 0 0", "g 0 9", "g 99 9", "w 0 1 9", "w 99 1 9", "j 0 9"]);
            self.lines(&["j 99 9", "q 9", "x 8", "r 8"]);
            for disk in 0..n {
                self.line(format!("x {disk}"));
            }
            self.lines(&["s 0", "s 99", "r 0", "s 0", "s 9999", "s 9999", "g 8 99"]);
        }
    }

    /// Refusals of a join: "membership is tested before reach", and both before L.
    fn refused_joins(&mut self) {
        self.heading("joins of a member out of reach, and of no member with none live");
        self.lines(&["f 3 2", "x 2", "w 0 9 99", "j 2 99", "r 2", "j 2 3", "s 99", "j 2 99"]);
        self.lines(&["x 0", "j 0 99", "r 0", "j 0 99", "x 0", "w 1 8 99", "r 0", "x 1", "x 2"]);
        self.lines(&[
            "j 0 0", "j 0 99", "g 0 99", "r 2", "j 0 99", "g 0 99", "g 1 99", "j 0 99",
        ]);
        self.heading("the example of docs/CHANGES.md for request 2.1");
        self.lines(&["f 3 8", "x 2", "j 2 99", "r 2", "j 2 99", "x 2", "w 0 7 99", "j 2 99"]);
        self.lines(&["x 0", "x 1", "j 0 99"]);
        for n in [2, 3, 8] {
            self.joins_of_a_pulled_disk(n, n / 2);
        }
    }

    /// Joins of a disk that is pulled: while it is current, and when a write has left it behind, with others live and
    /// with none. Then joins when it is back, with none live and with one.
    fn joins_of_a_pulled_disk(&mut self, n: u16, pulled: u16) {
        let joins = [format!("j {pulled} 0"), format!("j {pulled} 99")];
        self.heading(&format!("joins of a pulled disk, n = {n}"));
        self.lines(&[format!("f {n} 2"), format!("x {pulled}")]);
        self.lines(&joins);
        self.line("w 0 5 99");
        self.lines(&joins);
        for disk in (0..n).filter(|&disk| disk != pulled) {
            self.lines(&[format!("x {disk}"), format!("j {disk} 99")]);
        }
        self.lines(&joins);
        self.line(format!("r {pulled}"));
        self.lines(&joins);
        self.lines(&[
            format!("r {}", (pulled + 1) % n),
            format!("j {pulled} 99"),
            format!("j {pulled} 0"),
        ]);
    }

    /// "Reads should notice a loss" (request 2.3). The scenes have those that are cut after a loss.
    fn reads(&mut self) {
        self.heading("the example of docs/CHANGES.md for request 2.3");
        self.lines(&["f 3 8", "w 0 7 99", "g 0 0", "x 2", "g 0 99", "g 0 99", "r 2", "j 2 99"]);
        self.lines(&["x 0", "g 0 3", "s 99", "g 0 0"]);
        for n in 1..=8 {
            self.reads_while_disks_go(n);
        }
    }

    /// After each loss a read of no block, which moves nowhere, a read that moves, and one that finds L = G; then the
    /// refusals with none live, and while stopped.
    fn reads_while_disks_go(&mut self, n: u16) {
        let last = n - 1;
        self.heading(&format!("reads while disks go, n = {n}"));
        self.lines(&[format!("f {n} 2"), write(1, 30 + n)]);
        for disk in 0..last {
            self.line(format!("x {disk}"));
            self.lines(&["g 2 0", "g 2 99", "g 1 99", "g 1 0"]);
        }
        self.line(format!("x {last}"));
        self.lines(&["g 1 0", "g 1 99", "g 2 0", "c", "g 1 0", "g 1 99", "g 2 0"]);
        self.line(format!("r {last}"));
        self.lines(&["g 1 0", "s 99", "g 1 0"]);
    }

    /// Disks that come and go between calls.
    fn lost_and_returned(&mut self) {
        self.heading("the case of docs/METHOD.md: a disk that was away during a change, alone");
        self.lines(&[
            "f 2 1",
            "w 0 40 99",
            "x 1",
            "w 0 41 99",
            "c",
            "x 0",
            "r 1",
            "s 99",
            "r 0",
        ]);
        self.lines(&["s 99", "g 0 99"]);
        for n in 2..=8u16 {
            self.heading(&format!("each disk away for a while, n = {n}"));
            self.line(format!("f {n} 2"));
            for disk in 0..n {
                self.line(format!("x {disk}"));
                self.line(format!("x {disk}"));
                self.line(format!("w 1 {} 99", 10 * n + disk));
                self.line(format!("r {disk}"));
                self.line(format!("r {disk}"));
                self.lines(&["g 1 99", "c", "s 99", "g 1 99"]);
                self.line(format!("j {disk} {}", 3 * n + disk));
                self.lines(&["g 1 99", "s 99", "g 1 99"]);
                self.line(format!("j {disk} 99"));
            }
            self.heading("a member that comes back is current again");
            self.lines(&["x 0", "q 99", "r 0", "g 1 0", "w 0 3 99", "q 99", "q 0"]);
            self.heading("a member that a read has left behind is not");
            self.lines(&["x 0", "g 1 99", "r 0", "g 1 0", "j 0 99", "g 1 0"]);
            self.heading("cohorts that shrink to one disk, and restarts of the others");
            for disk in 0..n - 1 {
                self.line(format!("x {disk}"));
                self.line(format!("w 0 {} 99", 100 + disk));
            }
            self.line("c");
            for disk in 0..n - 1 {
                self.line(format!("r {disk}"));
            }
            self.line(format!("x {}", n - 1));
            self.line("s 99");
            self.line(format!("r {}", n - 1));
            self.lines(&["s 99", "g 0 99", "j 0 99", "x 7", "g 0 99", "g 1 99"]);
        }
    }

    /// `f` with n and b in and out of range, and calls that show that a refused one keeps state and area.
    fn fresh_in_and_out_of_range(&mut self) {
        let counts: [u16; 15] = [0, 1, 2, 7, 8, 9, 10, 63, 64, 65, 255, 256, 257, 32768, 65535];
        self.heading("f with every pair of counts");
        self.lines(&["f 2 3", "w 2 77 99", "x 0"]);
        for n in counts {
            for b in counts {
                self.line(format!("f {n} {b}"));
                self.line(format!("w {} 7 {AMPLE}", b.min(64).saturating_sub(1)));
            }
        }
        self.heading("a refused f keeps state and area");
        self.lines(&["f 3 2", "w 1 44 99", "x 1", "w 0 45 99"]);
        for refused in ["f 0 1", "f 9 1", "f 1 0", "f 1 65", "f 0 0", "f 9 65", "f 257 1"] {
            self.lines(&[refused, "g 0 99", "g 1 99"]);
        }
        self.lines(&["c", "f 9 9", "g 0 99", "f 1 65", "s 0", "s 99", "g 0 99", "g 1 99"]);
        self.lines(&["r 1", "j 1 99", "x 0", "x 2", "g 0 99", "g 1 99"]);
        self.heading("the largest cabinet");
        self.lines(&["f 8 64", "w 63 255 65535", "w 0 1 65535", "x 0", "w 31 9 500", "r 0"]);
        self.lines(&[
            "j 0 65535",
            "x 1",
            "c",
            "s 65535",
            "g 63 99",
            "g 31 99",
            "r 1",
            "j 1 70",
        ]);
        self.lines(&["s 2000", "g 63 99", "x 7", "g 0 99", "g 31 99"]);
    }

    /// Bad lines of every kind, with good ones between that show that nothing changed.
    fn bad_lines(&mut self) {
        self.heading("bad lines");
        self.lines(&["f 2 9", "w 7 77 99", "x 1"]);
        for (count, line) in BAD_LINES.iter().enumerate() {
            self.line(line);
            if count % 4 == 0 {
                self.line("g 7 99");
            }
        }
        self.heading("each letter with too few and too many numbers");
        for letter in 0..=255u8 {
            if letter != b'\n' {
                self.line([letter]);
                self.line([letter, b' ', b'9', b'9']);
            }
        }
        for letter in "fxrcwjqsg".chars() {
            for tail in ["", " ", " 9 9 9 9", " 1", " 9 9", " 9 9 9", " a", " 9 ", " 1 1 1 1 1 1"] {
                self.line(format!("{letter}{tail}"));
            }
        }
        self.lines(&["g 7 99", "r 1", "g 7 99"]);
        self.heading("leading zeros are good, up to five digits");
        self.lines(&[
            "f 00002 00009",
            "w 00007 00007 00099",
            "g 00007 00000",
            "x 00001",
            "r 1",
        ]);
        self.lines(&["w 0 00255 65535", "g 00000 00000", "q 00000", "f 2 9", "j 00001 0"]);
        self.lines(&["c", "s 00099", "w 00008 000 00", "s 65535", "w 00008 9 4"]);
        self.lines(&["g 8 0", "g 00008 00001", "g 008 65535"]);
    }

    /// Bad reads with a disk away, where a good one would move: none of them does.
    fn bad_reads(&mut self) {
        self.heading("bad reads with a disk away");
        self.lines(&["f 2 9", "w 0 77 99", "x 1"]);
        self.lines(&BAD_READS);
        self.line("g 0 99");
    }

    /// A line of over 32 bytes is one bad line, however long. No line of 32 bytes is good either: the longest good
    /// one, `w` with three numbers of five digits, has 19.
    fn long_lines(&mut self) {
        self.heading("long lines");
        self.lines(&["f 2 9", "w 65535 00255 65535", "w 00008 00255 65535", "g 00008 65535"]);
        for length in [18, 19, 20, 31, 32, 33, 34, 63, 64, 65, 100, 5000, 20000] {
            self.line(format!("g 8 {:0>1$}", 9, length - 4));
            self.line(format!("g 8 9{:1$}", "", length - 5));
            self.line("g 8 9");
        }
        for length in [31, 32, 33, 34, 63, 64, 65, 66, 96, 97, 98, 99, 100] {
            self.line(format!("{:1$}c", "", length - 1));
            self.line(format!("{:x<1$}", "w 8 1 99", length));
            self.line(format!("{}s 99", "c".repeat(length - 4)));
        }
        self.lines(&["g 8 99", "q 0", "s 99", "g 8 99"]);
    }

    /// Random histories, of the same kind as the benchmark's but from other seeds.
    fn random_histories(&mut self) {
        for seed in 1..=12 {
            self.heading(&format!("random history {seed}"));
            let mut session = Session::new(seed);
            for _ in 0..800 {
                let line = session.line();
                self.line(line);
            }
        }
    }

    /// "The last line may lack its line feed."
    fn last_line(&mut self) {
        self.heading("the last line lacks its line feed");
        self.lines(&["f 4 3", "w 2 123 99", "", "g 2 99"]);
        self.bytes.extend(b"g 2 99");
    }
}

/// Reads that are no commands.
const BAD_READS: [&str; 8] = [
    "g 0",
    "g",
    "g 0 ",
    "g 0 99 1",
    "g 65536 1",
    "g 0 65536",
    "g  0 1",
    "G 0 1",
];

/// Lines that are no commands.
const BAD_LINES: [&[u8]; 77] = [
    b"",
    b" ",
    b"  ",
    b"z",
    b"z 1",
    b"1",
    b"0",
    b"F 1 1",
    b"X 0",
    b"R 0",
    b"C",
    b"W 7 1 9",
    b"J 1 9",
    b"Q 9",
    b"S 9",
    b"G 7 9",
    b"g",
    b"g 7",
    b"g 7 7 7",
    b"g  7 9",
    b"g 7  9",
    b" g 7 9",
    b"g 7 9 ",
    b"g\t7 9",
    b"g 7\t9",
    b"g 7 9\r",
    b"c\r",
    b"\r",
    b"\t",
    b"g 7 9\0",
    b"g\x007 9",
    b"\0",
    b"g \xff 9",
    b"\xff\xfe",
    b"g 7 9\x80",
    b"\xc3\xa9",
    b"g +7 9",
    b"g -7 9",
    b"g 7 -0",
    b"+g 7 9",
    b"g 0x7 9",
    b"g 7h 9",
    b"g 7 1f",
    b"g 7.0 9",
    b"g 7,9",
    b"g 7 1e1",
    b"g 000001 9",
    b"g 123456 9",
    b"g 7 000000",
    b"g 65536 9",
    b"g 7 99999",
    b"g 70000 9",
    b"w 7 256 9",
    b"w 7 00256 9",
    b"w 7 65535 9",
    b"w 7 1 65536",
    b"w 7 1",
    b"w 7 1 9 9",
    b"w 7  1 9",
    b"w 7 1  9",
    b"w  7 1 9",
    b"w 7 1 9 ",
    b"w,7,1,9",
    b"x",
    b"x 0 0",
    b"r",
    b"r 0 0",
    b"cc",
    b"c 0",
    b"c ",
    b"j 1",
    b"q",
    b"q 9 9",
    b"s",
    b"s 9 9",
    b"f 1",
    b"g7 9",
];

impl Scene {
    /// The length of the call's list.
    fn length(&self) -> u16 {
        let mut program = Program::new(Rules::PAPER);
        for line in &self.setup {
            program.answer(line.as_bytes());
        }
        let line = format!("{} {AMPLE}", self.call);
        program.answer(line.as_bytes()).stores as u16
    }

    /// A scene on n disks of b blocks, which starts with a fresh.
    fn new(name: &str, (n, b): (u16, u16), shown: &[u16], setup: &[String], call: String) -> Scene {
        let fresh = format!("f {n} {b}");
        let lost = |line: &String| line.strip_prefix("x ").and_then(|disk| disk.parse().ok());
        Scene {
            name: format!("{name}, b = {b}"),
            setup: [&[fresh], setup].concat(),
            call,
            lost: setup.iter().filter_map(lost).collect(),
            disks: n,
            shown: shown.to_vec(),
        }
    }
}

/// A read with a supply that suffices: a move has at most 14 stores.
fn read(block: u16) -> String {
    format!("g {block} 99")
}

/// A write with an ample supply.
fn write(block: u16, value: u16) -> String {
    format!("w {block} {value} {AMPLE}")
}

/// The scenes on n disks.
fn scenes(n: u16) -> Vec<Scene> {
    let mut scenes = one_cohort_scenes(n);
    if n >= 2 {
        scenes.extend(smaller_cohort_scenes(n, n / 2));
    }
    if (2..=4).contains(&n) {
        scenes.extend(smaller_cohort_scenes(n, 0));
    }
    if n >= 3 {
        scenes.extend(two_away_scenes(n));
    }
    scenes
}

/// All disks stay: a read and a write without a move, a quiet, a restart.
fn one_cohort_scenes(n: u16) -> Vec<Scene> {
    let ample = |line: &str| format!("{line} {AMPLE}");
    let two_regions = [write(0, 1), write(8, 2)];
    let torn = [write(0, 1), write(8, 2), "w 8 3 1".into()];
    vec![
        Scene::new("a read", (n, 2), &[1], &[write(1, 1)], "g 1".into()),
        Scene::new("a write", (n, 2), &[1], &[write(1, 1), ample("q")], "w 1 2".into()),
        Scene::new(
            "a write to a dirty region",
            (n, 9),
            &[8],
            &[write(8, 1)],
            "w 8 2".into(),
        ),
        Scene::new("a quiet", (n, 9), &[0], &two_regions, "q".into()),
        Scene::new("a restart", (n, 9), &[8], &torn, "s".into()),
        Scene::new("a restart of a clean cabinet", (n, 1), &[0], &["c".into()], "s".into()),
    ]
}

/// One disk is away: a read and a write with a move first, a quiet, a join, restarts.
fn smaller_cohort_scenes(n: u16, away: u16) -> Vec<Scene> {
    let away_now = [write(1, 1), format!("x {away}")];
    let then = |lines: &[String]| [&away_now[..], lines].concat();
    let smaller = then(&[write(1, 2), format!("r {away}")]);
    let torn_move = then(&[format!("w 1 2 {}", n / 2)]);
    let torn_commit = then(&[format!("g 1 {}", n - 1 + n / 2)]);
    let torn_join = [&smaller[..], &[format!("j {away} {}", 2 + n + n / 2)]].concat();
    vec![
        Scene::new("a read with a move", (n, 2), &[1], &away_now, "g 1".into()),
        Scene::new("a write with a move", (n, 2), &[1], &away_now, "w 1 2".into()),
        Scene::new("a quiet with a disk away", (n, 2), &[1], &away_now, "q".into()),
        Scene::new("a join", (n, 3), &[1], &smaller, format!("j {away}")),
        Scene::new("a restart after a cut proposal", (n, 2), &[1], &torn_move, "s".into()),
        Scene::new("a restart after a cut commit", (n, 2), &[1], &torn_commit, "s".into()),
        Scene::new("a restart after a cut join", (n, 3), &[1], &torn_join, "s".into()),
    ]
}

/// Two disks are away: a read and a join with a move first.
fn two_away_scenes(n: u16) -> Vec<Scene> {
    let (lose_first, lose_last) = ("x 0".to_string(), format!("x {}", n - 1));
    let away_now = [write(1, 1), lose_first.clone(), lose_last.clone()];
    let one_behind = [write(1, 1), lose_first, write(1, 2), lose_last, "r 0".into()];
    vec![
        Scene::new("a read with two disks away", (n, 2), &[1], &away_now, "g 1".into()),
        Scene::new("a join with a move", (n, 2), &[1], &one_behind, "j 0".into()),
    ]
}
