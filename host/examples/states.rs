//! Prints, for each statement of a flow file, its masks, live-in and live-out:
//! `cargo run --release --example states ../examples/p5.flow`.

#[cfg(proved)]
fn main() -> Result<(), Box<dyn std::error::Error>> {
    let path = std::env::args().nth(1).ok_or("usage: states FILE")?;
    match yarnuskel_host::door::states(&std::fs::read(path)?) {
        Ok(states) => {
            for i in 0..states.statements() {
                let masks: String = states.masks_of(i).iter().map(|m| m.to_string()).collect();
                println!("{i} {masks} {:016x} {:016x}", states.live_in[i], states.live_out[i]);
            }
            println!("{} visits", states.visits);
            Ok(())
        }
        Err(refusal) => {
            println!("refused {} at {}", refusal.number, refusal.place);
            std::process::exit(1)
        }
    }
}

#[cfg(not(proved))]
fn main() {
    println!("{}", yarnuskel_host::sides::NO_LIBRARY);
}
