use std::{
    io::{self, IsTerminal},
    time::{Duration, Instant},
};

/// Says on standard error how far a long command is: on a terminal a line that is written anew, elsewhere a line now and then.
pub struct Progress {
    count: u64,
    done: u64,
    start: Instant,
    said: Instant,
    is_terminal: bool,
}

impl Progress {
    pub fn new(count: u64) -> Self {
        Self {
            count,
            done: 0,
            start: Instant::now(),
            said: Instant::now(),
            is_terminal: io::stderr().is_terminal(),
        }
    }

    pub fn step(&mut self) {
        let pause = Duration::from_millis(if self.is_terminal { 500 } else { 10_000 });

        self.done += 1;

        if self.said.elapsed() >= pause {
            self.said = Instant::now();
            self.say();
        }
    }

    pub fn end(&self) {
        self.say();

        if self.is_terminal {
            eprintln!();
        }
    }

    fn say(&self) {
        let seconds = self.start.elapsed().as_secs_f64();
        let rate = self.done as f64 / seconds.max(1e-9);
        let left = (self.count - self.done) as f64 / rate.max(1e-9);
        let line = format!(
            "{} of {} calls, {rate:.0} a second, {seconds:.0} s so far, {left:.0} s left",
            self.done, self.count
        );

        if self.is_terminal {
            eprint!("\r\x1b[K{line}");
        } else {
            eprintln!("{line}");
        }
    }
}
