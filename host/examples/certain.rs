//! Prints the names of a flow file that are certainly written before they are read, the word and then
//! the names by number: `cargo run --release --example certain ../examples/names.flow`.

#[cfg(proved)]
fn main() -> Result<(), Box<dyn std::error::Error>> {
    let path = std::env::args().nth(1).ok_or("usage: certain FILE")?;
    match yarnuskel_host::door::certain(&std::fs::read(path)?) {
        Ok(word) => {
            let names = (0..64).filter(|name| word >> name & 1 == 1);
            println!("{word:016x}{}", names.map(|name| format!(" {name}")).collect::<String>());
            Ok(())
        }
        Err(refusal) => {
            println!("refused {} at {}", refusal.number, refusal.place);
            std::process::exit(1)
        }
    }
}

#[cfg(not(proved))]
fn main() {
    println!("{}", yarnuskel_host::sides::NO_LIBRARY);
}
