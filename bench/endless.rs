//! What memory the proved store has as its history grows: its process's resident memory after a million updates, and after more.

use crate::proved::Proved;
use crate::twins::Sizes;

const SIZES: Sizes = Sizes { window: 4_096, entries: 65_536, value: 8 };

const MILLION: u64 = 1_000_000;

/// Prints the resident memory after so many updates.
pub fn print(path: &str) {
    println!("\n{:<32}{:>18}", "updates of one store", "resident, KiB");
    let mut proved = Proved::start(path, 1, 1, SIZES);
    let mut made = 0;
    for updates in [MILLION, 10 * MILLION, 100 * MILLION] {
        proved.calls("update", updates - made);
        made = updates;
        println!("{made:<32}{:>18}", proved.resident());
    }
    proved.end();
}
