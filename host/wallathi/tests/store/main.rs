//! The library beside the model and the plain store: each answer, each out-parameter and each byte of store, state and output is
//! compared after each command. Seeds are fixed. With WALLATHI_LONG in the environment there is much more of everything.

mod batches;
mod beside;
mod damage;
mod every_byte;
mod files;
mod groups;
mod healing;
mod lent;
mod limits;
mod lists;
mod nodes;
mod readers;
mod replies;
mod reports;
mod sides;
mod strict;
mod strings;

use std::env;
use std::time::{Duration, Instant};

fn is_long() -> bool {
    env::var_os("WALLATHI_LONG").is_some()
}

/// So much in the short run, so much in the long one.
fn amount<T>(short: T, long: T) -> T {
    if is_long() {
        long
    } else {
        short
    }
}

/// Says in the long run how far a test is, every ten seconds.
struct Progress {
    name: &'static str,
    done: usize,
    all: usize,
    told: Instant,
}

impl Progress {
    fn new(name: &'static str, all: usize) -> Progress {
        Progress { name, done: 0, all, told: Instant::now() }
    }

    fn step(&mut self) {
        self.done += 1;
        if is_long() && self.told.elapsed() >= Duration::from_secs(10) {
            eprintln!("{}: {} of {}", self.name, self.done, self.all);
            self.told = Instant::now();
        }
    }
}
