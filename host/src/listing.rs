//! What the listing program prints for an input, by the reference answerer.

use std::fmt::Write;

use crate::answerer::{self, Areas};
use crate::flow;

const LONGEST_INPUT: usize = 16_384;
/// The most statements that the program's areas serve.
const STATEMENTS: usize = 96;

pub fn listing(file: &[u8]) -> String {
    if file.len() > LONGEST_INPUT {
        return "L\n".into();
    }
    let (masks, live, work) = Areas::least(STATEMENTS, flow::MAX_ARRAYS.into());
    let mut areas = Areas::patterned(masks, live, live, work);
    let answer = answerer::answer(file, &mut areas, None);
    if answer.number != 0 {
        return format!("R {} {}\n", answer.number, answer.place);
    }
    let flow = flow::read(file).unwrap();
    let mut text = format!("F {} {} {}\n", flow.statements.len(), flow.arrays, flow.names);
    for (i, s) in flow.statements.iter().enumerate() {
        let arrays = usize::from(flow.arrays);
        let masks = &areas.masks[i * arrays..(i + 1) * arrays];
        let digits: String = masks.iter().map(|m| char::from(b'0' + m)).collect();
        let digits = if arrays == 0 { "-" } else { &digits };
        let (live_in, live_out) = (areas.live_in[i], areas.live_out[i]);
        writeln!(text, "{i} {} {digits} {live_in:016x} {live_out:016x}", s.line).unwrap();
    }
    text
}
