//! Prints the names of a flow file that interfere, a row a name, how many are live at once, and cells that they
//! may share: `cargo run --release --example interference ../examples/cells.flow`.

#[cfg(proved)]
fn main() -> Result<(), Box<dyn std::error::Error>> {
    let path = std::env::args().nth(1).ok_or("usage: interference FILE")?;
    match yarnuskel_host::door::interference(&std::fs::read(path)?) {
        Ok(found) => {
            print!("{}", found.print());
            Ok(())
        }
        Err(refusal) => {
            println!("refused {} at {}", refusal.number, refusal.place);
            std::process::exit(1)
        }
    }
}

#[cfg(not(proved))]
fn main() {
    println!("{}", yarnuskel_host::sides::NO_LIBRARY);
}
