//! Commands that get a text on standard input, and give one on standard output.

use std::io::{self, Read, Write};
use std::process::{Child, ChildStdin, Command, Stdio};
use std::sync::mpsc;
use std::thread;
use std::time::{Duration, Instant};

/// A command may write this many bytes.
const MOST_BYTES: u64 = 1 << 28;

/// How many characters of what a command says on standard error are shown.
const MOST_SHOWN: usize = 500;

/// How often a command that has closed its output is asked whether it has ended.
const PAUSE: Duration = Duration::from_millis(2);

/// What a command has written.
type Written = (io::Result<String>, String);

fn start(command: &[String]) -> io::Result<Child> {
    let (program, arguments) = command.split_first().ok_or(io::ErrorKind::InvalidInput)?;
    let mut made = Command::new(program);
    made.args(arguments)
        .stdin(Stdio::piped())
        .stdout(Stdio::piped())
        .stderr(Stdio::piped());
    made.spawn()
}

// Writes the text, and closes the pipe. A command may end before it has read all.
fn write_all(pipe: Option<ChildStdin>, text: String) {
    thread::spawn(move || pipe.map(|mut pipe| pipe.write_all(text.as_bytes())));
}

fn read_all(pipe: Option<impl Read>) -> io::Result<Vec<u8>> {
    let mut bytes = Vec::new();
    if let Some(pipe) = pipe {
        pipe.take(MOST_BYTES).read_to_end(&mut bytes)?;
    }
    Ok(bytes)
}

// Reads both outputs until they are closed.
fn read_both(child: &mut Child) -> mpsc::Receiver<Written> {
    let (output, errors) = (child.stdout.take(), child.stderr.take());
    let (sender, receiver) = mpsc::channel();
    thread::spawn(move || {
        let said = thread::spawn(move || read_all(errors).unwrap_or_default());
        let text = read_all(output).and_then(|bytes| {
            String::from_utf8(bytes).map_err(|_| io::Error::new(io::ErrorKind::InvalidData, "its output is not UTF-8"))
        });
        let said = said.join().unwrap_or_default();
        sender.send((text, String::from_utf8_lossy(&said).trim().to_owned()))
    });
    receiver
}

// Waits for the end of a command, and returns whether it succeeded.
fn succeeds(child: &mut Child, end: Instant) -> io::Result<Option<bool>> {
    loop {
        match child.try_wait()? {
            Some(status) => return Ok(Some(status.success())),
            None if Instant::now() >= end => return Ok(None),
            None => thread::sleep(PAUSE),
        }
    }
}

// What a command makes of a text. It is ended if it takes longer.
fn outcome(child: &mut Child, text: &str, limit: Duration) -> Result<String, String> {
    let end = Instant::now() + limit;
    write_all(child.stdin.take(), text.to_owned());
    let late = || format!("it took more than {} seconds", limit.as_secs_f32());
    let (output, said) = read_both(child).recv_timeout(limit).map_err(|_| late())?;
    match succeeds(child, end).map_err(|error| error.to_string())? {
        Some(true) => output.map_err(|error| error.to_string()),
        Some(false) if said.is_empty() => Err("it failed and said nothing".to_owned()),
        Some(false) => Err(said.chars().take(MOST_SHOWN).collect()),
        None => Err(late()),
    }
}

/// Returns what a command makes of a text.
///
/// # Errors
/// It cannot be started, takes longer than a limit, fails, or writes what is not UTF-8. The message says so, with what the command says.
pub fn filtered(command: &[String], text: &str, limit: Duration) -> Result<String, String> {
    let named = |reason: String| format!("`{}`: {reason}", command.join(" "));
    let mut child = start(command).map_err(|error| named(error.to_string()))?;
    let outcome = outcome(&mut child, text, limit);
    // A command that has ended cannot be ended again, and is waited for all the same.
    let _ = child.kill();
    let _ = child.wait();
    outcome.map_err(named)
}

#[cfg(test)]
mod tests {
    use super::*;

    fn run(command: &[&str], text: &str) -> Result<String, String> {
        let command: Vec<String> = command.iter().map(|word| (*word).to_owned()).collect();
        filtered(&command, text, Duration::from_secs(5))
    }

    #[test]
    fn a_command_gets_the_text_and_gives_another() {
        assert_eq!(run(&["tr", "a", "b"], "aä\n").unwrap(), "bä\n");
        let long = "a".repeat(1 << 20);
        assert_eq!(run(&["cat"], &long).unwrap(), long);
        assert_eq!(run(&["true"], &long).unwrap(), "");
    }

    #[test]
    fn what_goes_wrong_is_said() {
        let refused = |command: &[&str]| run(command, "a").unwrap_err();
        assert!(refused(&["/none/command"]).starts_with("`/none/command`: "));
        assert_eq!(
            refused(&["sh", "-c", "echo no >&2; exit 3"]),
            "`sh -c echo no >&2; exit 3`: no"
        );
        assert!(refused(&["false"]).contains("said nothing"));
        assert!(refused(&["printf", "\\377"]).contains("UTF-8"));
        assert!(run(&[], "a").is_err());
    }

    #[test]
    fn a_command_that_takes_long_is_ended() {
        let slow = |command: &str| {
            let words = ["sh", "-c", command].map(str::to_owned);
            filtered(&words, "a", Duration::from_millis(200)).unwrap_err()
        };
        let start = Instant::now();
        assert!(slow("exec sleep 60").contains("more than 0.2 seconds"));
        assert!(slow("exec >&- 2>&-; exec sleep 60").contains("more than 0.2 seconds"));
        assert!(start.elapsed() < Duration::from_secs(20));
    }
}
