use std::{
    error::Error,
    fmt,
    io::{self, Read, Write},
    process::{Command, Stdio},
    thread,
    time::{Duration, Instant},
};

/// A command that is run on inputs.
pub struct Program {
    words: Vec<String>,
    limit: Duration,
}

/// What a program printed, and how it ended where it did not end well.
#[derive(Debug, Eq, PartialEq)]
pub struct Answer {
    output: Vec<u8>,
    failure: Option<String>,
}

impl Program {
    pub fn new(command: &str, limit: Duration) -> Result<Self, Box<dyn Error>> {
        let words = command
            .split_whitespace()
            .map(str::to_string)
            .collect::<Vec<_>>();

        if words.is_empty() {
            return Err("an empty command".into());
        }

        Ok(Self { words, limit })
    }

    pub fn run(&self, input: &[u8]) -> io::Result<Answer> {
        let mut child = Command::new(&self.words[0])
            .args(&self.words[1..])
            .stdin(Stdio::piped())
            .stdout(Stdio::piped())
            .stderr(Stdio::null())
            .spawn()?;
        let mut stdin = child.stdin.take().expect("standard input");
        let mut stdout = child.stdout.take().expect("standard output");

        thread::scope(|scope| {
            // A program that has seen enough may leave the rest of its input unread.
            scope.spawn(move || stdin.write_all(input).ok());

            let reader = scope.spawn(move || {
                let mut output = vec![];

                stdout.read_to_end(&mut output).map(|_| output)
            });
            let start = Instant::now();
            let mut pause = Duration::from_micros(100);
            let failure = loop {
                if let Some(status) = child.try_wait()? {
                    break (!status.success()).then(|| status.to_string());
                }

                if start.elapsed() > self.limit {
                    child.kill()?;
                    child.wait()?;
                    break Some("stopped: too slow".into());
                }

                thread::sleep(pause);
                pause = (2 * pause).min(Duration::from_millis(10));
            };

            Ok(Answer {
                output: reader.join().expect("a reader")?,
                failure,
            })
        })
    }
}

impl fmt::Display for Program {
    fn fmt(&self, formatter: &mut fmt::Formatter) -> fmt::Result {
        write!(formatter, "'{}'", self.words.join(" "))
    }
}

impl Answer {
    pub fn is_complete(&self) -> bool {
        self.failure.is_none()
    }

    pub fn output(&self) -> &[u8] {
        &self.output
    }
}

impl fmt::Display for Answer {
    fn fmt(&self, formatter: &mut fmt::Formatter) -> fmt::Result {
        write!(formatter, "{}", String::from_utf8_lossy(&self.output))?;

        match &self.failure {
            Some(failure) => writeln!(formatter, "({failure})"),
            None => Ok(()),
        }
    }
}
