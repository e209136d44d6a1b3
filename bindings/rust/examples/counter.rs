//! Four threads count by one store, and what they counted is kept in a file.
//!
//! `cargo run --example counter [FILE]` in bindings/rust. A second run with the same file goes on from it.

use nrbpf::{Config, Manifest, State, Store};
use std::env;
use std::error::Error;
use std::fs::{self, File};
use std::thread;

fn main() -> Result<(), Box<dyn Error>> {
    let path = env::args().nth(1);
    let manifest = Manifest::read_in("../..", "examples/counter/manifest")?;
    let config = Config::new(2, 3);
    let store = match path.as_ref().filter(|path| std::path::Path::new(path).exists()) {
        Some(path) => Store::open_on(config, &manifest, &State::load(&manifest, 0, &fs::read(path)?)?)?,
        None => Store::open(config, &manifest)?,
    };

    let (bump, third) = (store.program("bump")?, 3u32.to_le_bytes());
    thread::scope(|scope| {
        for node in [0, 1, 0, 1] {
            let mut session = store.attach(node).expect("there is one for each");
            scope.spawn(move || {
                for _ in 0..1_000 {
                    session.update(bump, &third).expect("the history has no end");
                }
            });
        }
    });

    let (mut session, mut state) = (store.attach(0)?, store.new_state()?);
    let point = session.snapshot(&mut state)?;
    if let Some(path) = path {
        state.write_to(File::create(path)?)?;
    }
    for entry in session.scan(0)? {
        let (key, value) = entry?;
        let (key, value) = (u32::from_le_bytes(key[..].try_into()?), u64::from_le_bytes(value[..].try_into()?));
        if value > 0 {
            println!("counter {key} is {value} after {point} updates");
        }
    }
    Ok(())
}
