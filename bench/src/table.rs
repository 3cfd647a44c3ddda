//! The table of the measures, in Markdown.

use crate::measure::Measure;
use crate::sides::{LIBRARY, MODEL, PLAIN};
use checks::runner::in_repository;
use std::fs;
use std::path::PathBuf;

const HEAD: &str = "\
| call | library | plain | library / plain | median | model | library / model |
|---|---|---|---|---|---|---|
";

const NOTE: &str = "
Nanoseconds a call, the best of many short runs in which the sides take turns; the ratios are those \
of the best times, `median` is the median of library / plain over all runs. Every side is built for \
release and called through the same code, the library through its safe Rust functions. `plain` is \
safe Rust as one writes it without care for speed, with no allocation and early exits (`bench/src/plain`); \
`model` is the tests' oracle, written to be read. Before it is timed, each call is made on all three, \
and answers, cells, cache, table of handles, block, response, states and written map are equal. \
Each call is repeated on what it left. CLKC, KLOD and KUNL find 8 keys held and no reply awaited, \
`engine reply` finds those 8 places waiting under a clear, to which the engine is done, and RHPK \
rotates the last of three handles; the time to put that back is part of theirs on every side. \
EHDL lists three handles. \
In the largest map (16 slots, 2,048 cells, 256 bytes) the active slot is the last; `why` finds it torn, \
with the digest alone short. `map check` is the call `sci_partition` of that map's last partition, \
for which the whole map is judged. `none short` is an erasure after which no pair is short; \
`digest short` is one after which the digest alone is, the last pair before the indicator, so that \
the lowest short pair is looked for through all data. `write map` is `sci_write_map` of the text of \
the small drive's map, and of that of the largest one, which becomes 136 bytes. Where the linker \
puts the code moves a row by up to a seventh, and the engine's reply, the shortest, by a quarter: of \
one archive, linked in two places, the reply took 19 and 24 ns, `write map` of the largest map 241 and \
259. The plain erasure and FERS count each cell before its burn and after it.
";

/// The comments in README.md that the table stands between.
const BEGIN: &str = "<!-- bench/TABLE.md -->\n";
const END: &str = "<!-- end -->\n";

/// Where the table is kept, and where it is shown.
pub fn paths() -> [PathBuf; 2] {
    ["bench/TABLE.md", "README.md"].map(in_repository)
}

/// README.md in three parts: up to the table, the table, and what follows.
pub fn parts(readme: &str) -> Option<[&str; 3]> {
    let table = readme.find(BEGIN)? + BEGIN.len();
    let end = table + readme[table..].find(END)?;
    Some([&readme[..table], &readme[table..end], &readme[end..]])
}

/// Writes the table to where it is kept and to where it is shown.
///
/// # Panics
/// If one of the files cannot be read or written, or README.md has no place for it.
pub fn write(text: &str) {
    let [kept, readme] = paths();
    let shown = fs::read_to_string(&readme).expect("README.md can be read");
    let [before, _, after] = parts(&shown).expect("README.md has the table's comments");
    fs::write(kept, text).expect("bench/TABLE.md can be written");
    fs::write(readme, [before, text, after].concat()).expect("README.md can be written");
}

/// The table of these measures.
pub fn text(measures: &[Measure]) -> String {
    let rows: String = measures.iter().map(line).collect();
    format!("{HEAD}{rows}{NOTE}")
}

fn line(measure: &Measure) -> String {
    let name = &measure.row.name;
    let [library, plain, model] =
        [LIBRARY, PLAIN, MODEL].map(|side| grouped(measure.best(side).round() as u64));
    let (ratio, median) = (measure.ratio(PLAIN), measure.median_ratio(PLAIN));
    let to_model = measure.ratio(MODEL);
    format!(
        "| {name} | {library} | {plain} | {ratio:.2} | {median:.2} | {model} | {to_model:.2} |\n"
    )
}

/// A number with a comma before each three digits.
fn grouped(number: u64) -> String {
    match number {
        0..=999 => number.to_string(),
        _ => format!("{},{:03}", grouped(number / 1000), number % 1000),
    }
}
