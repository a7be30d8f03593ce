//! A seed that is another one each time.

use std::env;
use std::io::{self, Write};
use std::time::{SystemTime, UNIX_EPOCH};

/// The environment's CAMLIST_SEED, or the clock's.
pub fn fresh(cases: u64, of_what: &str) -> u64 {
    let seed = match env::var("CAMLIST_SEED") {
        Ok(seed) => seed.parse().expect("CAMLIST_SEED is a decimal number"),
        Err(_) => {
            let now = SystemTime::now().duration_since(UNIX_EPOCH);
            now.expect("a clock after 1970").as_nanos() as u64
        }
    };
    // Past the capture, so that it is shown even where all is well.
    let said = writeln!(io::stderr(), "{cases} {of_what}, CAMLIST_SEED={seed}");
    said.expect("standard error is open");
    seed
}
