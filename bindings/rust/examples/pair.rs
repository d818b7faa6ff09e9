//! A pair of words that one thread writes and another one reads: whoever reads it has both of one write.
//!
//! `./cell`, and then in `out/cell/rust`: `cargo run --offline --example pair`.

use solero_cell::{Seat, TryError};
use std::thread::spawn;

const WRITES: u64 = 1000;

fn main() -> Result<(), Box<dyn std::error::Error>> {
    let mut reader = Seat::open(&[0, 0])?;
    let mut writer = reader.split()?;
    let thread = spawn(move || {
        let mut count = 0;
        while count < WRITES {
            // after an error another write was in the way, and nothing was written
            count = writer.write(&[count + 1, 2 * (count + 1)]).unwrap_or(count);
        }
    });
    let mut pair = [0; 2];
    let mut count = 0;
    while count < WRITES {
        count = match reader.read(&mut pair) {
            Ok(read) => read,
            // a write was in the way, and the pair is as it was
            Err(TryError::NotFree | TryError::Changed) => continue,
            Err(other) => return Err(other.into()),
        };
        assert_eq!(pair[1], 2 * pair[0]);
    }
    thread.join().unwrap();
    println!("{} and {}, at count {count}", pair[0], pair[1]);
    Ok(())
}
