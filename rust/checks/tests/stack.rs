//! The stack that each call of the key block uses, against the table of docs/STACK.md; that no
//! generated call goes deeper than those in the table; and the measure itself, on arrays of known
//! lengths.

use checks::calls::{self, Scene};
use checks::painted::depth;
use checks::stack::table::{self, Row, GROWN, HEAD};
use checks::stack::{self, Used};
use checks::tally::Tally;
use std::io::Write;
use std::ptr;

/// No call through its safe Rust function may use so much, whatever its compiler makes of it.
const KIB: usize = 1024;

const DRIVES: usize = 2_000;
/// Every outcome of every call has to be met so often.
const LEAST: usize = 3;

/// The row of this name.
fn find<'a>(kept: &'a [Row], name: &str) -> Option<&'a Row> {
    kept.iter().find(|row| row.name == name)
}

/// What is wrong with a table, or with the stack that was measured.
fn faults(kept: &[Row], measured: &[(String, Used)]) -> Vec<String> {
    let mut found = vec![];
    for (name, Used { c, safe_rust }) in measured {
        match find(kept, name) {
            None => found.push(format!("{name}: the table has no row for it")),
            Some(Row { now, .. }) if *c > now.c => {
                found.push(format!("{name}: C takes {c} bytes, in the table {}", now.c));
            }
            Some(_) => {}
        }
        if *safe_rust >= KIB {
            found.push(format!("{name}: safe Rust takes {safe_rust} bytes, not less than {KIB}"));
        }
    }
    for (i, Row { name, before, now, reasoned }) in kept.iter().enumerate() {
        if !measured.iter().any(|(call, _)| call == name) {
            found.push(format!("{name}: no call is measured for this row of the table"));
        }
        if find(&kept[..i], name).is_some() {
            found.push(format!("{name}: the table has a second row for it"));
        }
        if now.c > before.c && !reasoned {
            let [now, before] = [now.c, before.c];
            found.push(format!("{name}: from {before} to {now} bytes, and no reason is given"));
        }
    }
    found
}

#[test]
#[cfg_attr(debug_assertions, ignore = "the stack is measured in an optimised build")]
fn no_call_takes_more_than_the_table_says() {
    let (kept, measured) = (table::kept(), stack::of_every_row());
    let mut lines = vec![format!("stack in bytes\n{HEAD}")];
    for (name, now) in &measured {
        let before = find(&kept, name).map_or(*now, |row| row.before);
        let row = Row { name: name.clone(), before, now: *now, reasoned: false };
        lines.push(row.to_string());
    }
    // Written past the test harness, which would keep a print to itself.
    writeln!(std::io::stdout(), "{}", lines.join("\n")).expect("it can be printed");
    assert_eq!(faults(&kept, &measured), [""; 0]);
}

#[test]
fn no_generated_call_goes_deeper_than_its_row_says() {
    let kept = table::kept();
    let total = Tally::over(DRIVES, |tally, number| {
        let mut scene = Scene::on(number, |_, _| ());
        for _ in 0..scene.calls {
            let (call, before) = scene.next_call();
            let (said, after, bytes) = stack::as_c_calls(&before, &call);
            let name = stack::row(&call, said);
            let most = find(&kept, &name).unwrap_or_else(|| panic!("no row {name}")).now.c;
            assert!(bytes <= most, "{name}: C takes {bytes} bytes, in the table {most}: {call}");
            tally.add([calls::came(&call, said)]);
            scene.go_on(after);
        }
    });
    total.check((160_000, "calls, their stacks measured"), calls::outcomes(), LEAST);
}

/// A call with these bytes.
fn call(c: usize, safe_rust: usize) -> Vec<(String, Used)> {
    vec![("KLOD".to_string(), Used { c, safe_rust })]
}

#[test]
fn every_fault_is_found() {
    let (less, more) = ("| KLOD | 300 | 200 | 0 | 0 |\n", "| KLOD | 200 | 201 | 0 | 0 |\n");
    let unreasoned = "from 200 to 201 bytes, and no reason is given";
    let elsewhere = "None.\n\n## What is measured\n\n- KLOD: with 15 places held.";
    let cases = [
        (less, "None.", call(200, 1023), ""),
        (less, "None.", call(8, 8), ""),
        (more, "- KLOD: a reason.", call(201, 8), ""),
        (more, "- FERS: one.\n- KLOD: another.", call(201, 8), ""),
        (more, "- KLOD refused: a reason.", call(9, 9), unreasoned),
        (more, elsewhere, call(9, 9), unreasoned),
        (less, "None.", call(201, 9), "C takes 201 bytes, in the table 200"),
        (less, "None.", call(9, 1024), "safe Rust takes 1024 bytes, not less than 1024"),
        (less, "None.", vec![], "no call is measured for this row of the table"),
        ("", "None.", call(9, 9), "the table has no row for it"),
        (&less.repeat(2), "None.", call(9, 9), "the table has a second row for it"),
    ];
    for (rows, grown, measured, fault) in cases {
        let kept = table::read(&format!("{HEAD}\n|---|\n{rows}\n{GROWN}\n{grown}\n"));
        let expected = if fault.is_empty() { vec![] } else { vec![format!("KLOD: {fault}")] };
        assert_eq!(faults(&kept, &measured), expected, "{rows}{grown}");
    }
}

#[test]
#[cfg_attr(debug_assertions, ignore = "the stack is measured in an optimised build")]
fn measure_sees_an_array_and_little_more() {
    sees_array::<512>();
    sees_array::<4096>();
}

fn sees_array<const BYTES: usize>() {
    let found = depth(|| (), |_| fill_array::<BYTES>());
    assert!((BYTES..BYTES + 128).contains(&found), "an array of {BYTES} bytes measures {found}");
}

#[inline(never)]
fn fill_array<const BYTES: usize>() {
    let mut array = [0_u8; BYTES];
    for byte in &mut array {
        // SAFETY: the byte is borrowed. A volatile write is not left out.
        unsafe { ptr::write_volatile(byte, 1) };
    }
}
