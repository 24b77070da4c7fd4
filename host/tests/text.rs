//! Flows as text: both ways for every fit file, and what is said of a text that is no flow.

use yarnuskel_host::flow::{self, Flow};
use yarnuskel_host::random::Random;
use yarnuskel_host::{cases, generate, text};

const SEED: u64 = 3;

/// Binary to text to binary, and text to binary to text.
fn both_ways(file: &[u8]) -> bool {
    let Ok(flow) = flow::read(file) else { return false };
    let printed = text::print(&flow);
    let read = text::read(&printed).unwrap_or_else(|e| panic!("{e}\n{printed}"));
    assert!(read.bytes() == file, "{printed}");
    assert_eq!(text::print(&read), printed);
    true
}

#[test]
fn random_files_both_ways() {
    let fit = (0..6_000).filter(|&index| both_ways(&generate::file(SEED, index))).count();
    assert!(fit > 3_000, "{fit} fit files");
}

#[test]
fn worked_flows_and_limits_both_ways() {
    for case in cases::steps().into_iter().chain(cases::worked()) {
        assert!(both_ways(&case.flow.bytes()), "{}", case.name);
    }
    let fit = cases::refusals().iter().filter(|case| both_ways(&case.file())).count();
    assert!(fit > 5, "{fit} cases at the limits");
    let fit = cases::key().iter().filter(|case| both_ways(&case.file())).count();
    assert!(fit > 40, "{fit} cases with a key");
    assert!(both_ways(&Flow { arrays: 64, names: 64, entry: 65_535, ..Flow::default() }.bytes()));
}

const P5: &str = "flow 4 statements, 1 array, 1 name, entry 0
0: line 10 GOSUB 30 then 1; to 2
1: line 20 other; refs 0; reads 0
2: line 30 other; to 3; refs 0
3: line 40 RETURN
lines 10=0 20=1 30=2 40=3
";

#[test]
fn p5_as_text() {
    let p5 = &cases::worked()[0].flow;
    assert_eq!(text::print(p5), P5);
    let by_hand =
        P5.replace("flow 4", "# remark\n\nflow 4").replace("; refs 0; reads 0", " ;reads 0;refs 0 # both");
    assert_eq!(text::read(&by_hand).as_ref(), Ok(p5));
}

/// The handler stands on a line of its own, after the lines or in their place.
#[test]
fn interrupt_key_as_text() {
    let with_key = Flow { handler: Some(2), ..cases::worked()[0].flow.clone() };
    assert_eq!(text::print(&with_key), format!("{P5}key 2\n"));
    assert_eq!(text::read(&format!("{P5}\n  key  2 # a handler\n")).as_ref(), Ok(&with_key));
    let short = "flow 1 statement, 0 arrays, 0 names, entry 0\n0: line 1 RETURN\n";
    assert_eq!(text::read(&format!("{short}key 0")).unwrap().handler, Some(0));
    let said = |more: &str| text::read(&format!("{P5}{more}")).unwrap_err().to_string();
    for (more, message) in [
        ("key", "line 7: expected a statement from 0 to 3, found the end of the line"),
        ("key 4", "line 7: expected a statement from 0 to 3, found `4`"),
        ("key 2 3", "line 7: expected the end of the line, found `3`"),
        ("key 2\nkey 2", "line 8: expected the end of the text, found `key`"),
        ("key 2\nlines 50=1", "line 8: expected the end of the text, found `lines`"),
        ("keys 2", "line 7: expected `lines` or `key`, found `keys`"),
    ] {
        assert_eq!(said(more), message);
    }
    let none = text::read("flow 0 statements, 0 arrays, 0 names, entry 0\nkey 0").unwrap_err();
    assert_eq!(none.to_string(), "line 2: expected a statement, of which there are none, found `0`");
}

/// What is said of P5 with one text put in the place of another.
fn said(old: &str, new: &str) -> String {
    assert_eq!(P5.matches(old).count(), 1, "{old}");
    text::read(&P5.replace(old, new)).unwrap_err().to_string()
}

#[test]
fn errors_name_line_and_expectation() {
    let many = " 1".repeat(256);
    let expected = [
        ("flow 4", "flw 4", "line 1: expected `flow`, found `flw`"),
        ("4 statements,", "4 statements", "line 1: expected `,`, found `1`"),
        ("4 statements", "2049 statements", "line 1: expected a count from 0 to 2048, found `2049`"),
        ("1 array", "65 arrays", "line 1: expected a count from 0 to 64, found `65`"),
        ("entry 0", "entry 4", "line 1: expected a statement from 0 to 3, found `4`"),
        ("1: line 20", "2: line 20", "line 3: expected statement 1, found `2`"),
        ("line 40", "line 65536", "line 5: expected a BASIC line from 0 to 65535, found `65536`"),
        (
            "RETURN",
            "RETRUN",
            "line 5: expected `other`, `RETURN`, `CLR`, `RUN`, `DIM`, `GOSUB` or `ON GOSUB`, found `RETRUN`",
        ),
        ("RETURN", "RETURN; refs 0", "line 5: expected one of to, writes, reads, found `refs`"),
        ("then 1", "then", "line 2: expected a statement from 0 to 3, found `;`"),
        ("; to 2", "; to", "line 2: expected successors, found the end of the line"),
        ("; to 2", "; to 4", "line 2: expected a statement from 0 to 3, found `4`"),
        ("; to 2", " to 2", "line 2: expected `;` or the end of the line, found `to`"),
        ("; to 2", &format!("; to{many}"), "line 2: expected no more than 255 in a list, found `1`"),
        ("refs 0; reads", "refs 1; reads", "line 3: expected an array from 0 to 0, found `1`"),
        ("refs 0; reads", "refs 0 0; reads", "line 3: expected an array above the one before, found `0`"),
        ("reads 0", "reads 1", "line 3: expected a name from 0 to 0, found `1`"),
        ("other; to 3", "DIM 0(; to 3", "line 4: expected `)`, found `;`"),
        ("to 3; refs 0", "to 3; to 3", "line 4: expected one of refs, writes, reads, found `to`"),
        ("3: line 40 RETURN\n", "", "line 5: expected statement 3, found `lines`"),
        ("lines 10=0", "4: line 50 RETURN\nlines 10=0", "line 6: expected `lines` or `key`, found `4`"),
        ("20=1", "10=1", "line 6: expected a BASIC line above the one before, found `10`"),
        ("20=1", "20=4", "line 6: expected a statement from 0 to 3, found `4`"),
    ];
    for (old, new, message) in expected {
        assert_eq!(said(old, new), message);
    }
    let short = "flow 1 statement, 0 arrays, 0 names, entry 0\n";
    let said = |text: String| text::read(&text).unwrap_err().to_string();
    assert_eq!(said(short.into()), "line 2: expected statement 0, found the end of the text");
    let none = format!("{short}0: line 1 other; refs 0\n");
    assert_eq!(said(none), "line 2: expected an array, of which there are none, found `0`");
}

#[test]
fn a_text_may_be_too_long_for_a_file() {
    let statement = |i: usize| format!("{i}: line 0 other; to{}\n", " 0".repeat(255));
    let text: String = (0..500).map(statement).collect();
    let error = text::read(&format!("flow 500 statements, 0 arrays, 0 names, entry 0\n{text}")).unwrap_err();
    let said = "line 502: expected a file of at most 262144 bytes, found 266510 bytes";
    assert_eq!(error.to_string(), said);
}

/// A text with a sign changed is refused by its line, or says a flow that is fit.
#[test]
fn what_is_read_is_fit() {
    let signs: Vec<char> = "0123456789;:=,() #\nx".chars().collect();
    let mut refused = 0;
    for index in 0..4_000 {
        let Ok(flow) = flow::read(&generate::file(SEED, index)) else { continue };
        let mut text: Vec<char> = text::print(&flow).chars().take(3_000).collect();
        let mut random = Random::new(SEED, index);
        let at = random.below(text.len());
        text[at] = random.pick(&signs);
        let text: String = text.into_iter().collect();
        match text::read(&text) {
            Ok(flow) => assert_eq!(flow::read(&flow.bytes()), Ok(flow), "{text}"),
            Err(error) => {
                assert!((1..=text.lines().count() + 1).contains(&error.line), "{error}\n{text}");
                refused += 1;
            }
        }
    }
    assert!(refused > 500, "{refused} refused");
}
