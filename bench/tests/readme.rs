//! README.md shows the table that was written last.

use bench::table;
use std::fs;

#[test]
fn readme_shows_the_table() {
    let [kept, readme] =
        table::paths().map(|path| fs::read_to_string(path).expect("the file can be read"));
    let [_, shown, _] = table::parts(&readme).expect("README.md has the table's comments");
    assert_eq!(shown, kept, "README.md shows another table than bench/TABLE.md");
}
