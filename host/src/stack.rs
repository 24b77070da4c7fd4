//! The machine stack, of which no proof speaks: the deepest nests of subroutines that a file can hold,
//! and how much stack a thread needs for them.

use std::process::{Command, Stdio};

use crate::flow::{Flow, Kind, MAX_ARRAYS, MAX_STATEMENTS, Statement};
use crate::judge::{self, Lent};
use crate::sides::NO_LIBRARY;

/// The stack that a caller must have; README.md says so, and a test answers the deepest nests in it.
pub const STACK: usize = 640 << 10;

/// The main part is one statement, and each subroutine one more.
pub const DEEPEST: usize = MAX_STATEMENTS as usize - 1;

/// Where the next subroutine stands that a subroutine calls: down the file, or up.
#[derive(Clone, Copy, Debug, PartialEq, Eq)]
pub enum Order {
    Down,
    Up,
}

pub const ORDERS: [Order; 2] = [Order::Down, Order::Up];

/// So many subroutines, each of which calls the next and goes on at the last, a RETURN alone.
pub fn nest(order: Order, depth: usize) -> Flow {
    let place = |level: usize| match order {
        Order::Down => level as u16,
        Order::Up => (depth - level) as u16,
    };
    let line = |i: u16| 10 + 10 * i;
    let statement = |i: u16| {
        let level = usize::from(place(i.into()));
        if level == depth {
            return Statement::new(line(i), Kind::Return, &[], &[]);
        }
        let next = place(level + 1);
        let kind = Kind::Gosub { line: line(next), continuation: Some(place(depth)) };
        Statement::new(line(i), kind, &[next], &[(level % usize::from(MAX_ARRAYS)) as u8])
    };
    let all = 0..=depth as u16;
    let lines = all.clone().filter(|&i| i != place(0)).map(|i| (line(i), i)).collect();
    let statements = all.map(statement).collect();
    Flow { arrays: MAX_ARRAYS, entry: place(0), statements, lines, ..Flow::default() }
}

/// What the proved call answers in a thread with so much stack. Too little of it ends the process.
pub fn outcome_in(bytes: usize, flow: &Flow) -> Option<judge::Outcome> {
    let file = flow.bytes();
    let lent = Lent::for_file(&file, 0);
    let call = move || judge::proved_outcome(&file, lent);
    std::thread::Builder::new().stack_size(bytes).spawn(call).unwrap().join().unwrap()
}

const PAGE: usize = 4_096;

/// The least stack, in pages, of a thread that answers a nest; each try is a process of its own.
fn least(order: Order, depth: usize) -> Result<usize, String> {
    let program = std::env::current_exe().map_err(|e| e.to_string())?;
    let answers = |pages: usize| {
        let words = ["stack-try".into(), format!("{order:?}"), depth.to_string(), (PAGE * pages).to_string()];
        let status = Command::new(&program).args(words).stdout(Stdio::null()).stderr(Stdio::null()).status();
        status.is_ok_and(|status| status.success())
    };
    let (mut short, mut enough) = (0, 4_096);
    if !answers(enough) {
        return Err(format!("{depth} subroutines, {order:?}: no answer in {} bytes", PAGE * enough));
    }
    while enough - short > 1 {
        let middle = (short + enough) / 2;
        *(if answers(middle) { &mut enough } else { &mut short }) = middle;
    }
    Ok(enough)
}

/// A thread of one page is raised to the least that the system gives.
fn thread(pages: usize) -> String {
    if pages == 1 {
        "the least thread there is".into()
    } else {
        format!("a thread of {} bytes", PAGE * pages)
    }
}

/// Whether a nest is answered in a thread with so much stack.
pub fn tried(order: &str, depth: u64, bytes: u64) -> Result<bool, String> {
    let named = |o: &Order| format!("{o:?}") == order;
    let order = ORDERS.into_iter().find(named).ok_or_else(|| format!("`{order}` is no order: Down, Up"))?;
    if !(1..=DEEPEST as u64).contains(&depth) {
        return Err(format!("from 1 to {DEEPEST} subroutines"));
    }
    Ok(outcome_in(bytes as usize, &nest(order, depth as usize)).is_some_and(|o| o.answer.number == 0))
}

/// Prints the least stack of a thread that answers the deepest nest in each order, and from a nest half
/// as deep what a level takes; whether `STACK` is enough.
pub fn measure() -> Result<bool, String> {
    if cfg!(not(proved)) {
        println!("{NO_LIBRARY}");
        return Ok(true);
    }
    let mut within = true;
    for order in ORDERS {
        let half = DEEPEST / 2;
        let (all, part) = (least(order, DEEPEST)?, least(order, half)?);
        let level = (PAGE * (all - part)) as f64 / (DEEPEST - half) as f64;
        print!("{order:?}: {DEEPEST} subroutines in {}, {half} in {}: ", thread(all), thread(part));
        println!("{level:.0} bytes a level");
        within &= PAGE * all <= STACK;
    }
    println!("to {PAGE} bytes, with what the thread itself takes (limit {STACK} bytes)");
    Ok(within)
}
