// Runs the listing program on one image and returns what it prints.
// Paper: "The program `trmlist` reads an image from standard input".
// If the program does not end well, that is an error, as text.
use std::io::Write;
use std::path::Path;
use std::process::{Command, Stdio};

pub fn listed(lister: &Path, image: &[u8]) -> Result<String, String> {
    let failed = |what: &str, why: String| format!("{} {what}: {why}", lister.display());
    let mut command = Command::new(lister);
    command.stdin(Stdio::piped()).stdout(Stdio::piped());
    let mut child = command.spawn().map_err(|error| failed("does not start", error.to_string()))?;
    let stdin = child.stdin.take();
    let output = std::thread::scope(|scope| {
        scope.spawn(move || {
            if let Some(mut stdin) = stdin {
                // If the program stops reading, only what it prints counts.
                let _ = stdin.write_all(image);
            }
        });
        child.wait_with_output()
    });
    let output = output.map_err(|error| failed("does not end", error.to_string()))?;
    if !output.status.success() {
        return Err(failed("fails", output.status.to_string()));
    }
    String::from_utf8(output.stdout).map_err(|error| failed("prints no text", error.to_string()))
}

/// The first row in which two listings differ, or none.
pub fn difference(theirs: &str, ours: &str) -> Option<String> {
    if theirs == ours {
        return None;
    }
    let (mut left, mut right) = (theirs.split('\n'), ours.split('\n'));
    for number in 1.. {
        match (left.next(), right.next()) {
            (a, b) if a != b => {
                let show = |row: Option<&str>| row.unwrap_or("nothing").to_string();
                return Some(format!("line {number}: listed `{}`, circuit `{}`", show(a), show(b)));
            }
            (None, None) => break,
            _ => (),
        }
    }
    Some("the texts differ".into())
}

#[cfg(test)]
mod tests {
    use super::*;

    #[test]
    fn one_character_is_a_difference() {
        assert_eq!(difference("a\nb\n", "a\nb\n"), None);
        assert!(difference("a\nb\n", "a\nc\n").is_some());
        assert!(difference("a\nb\n", "a\nb").is_some());
        assert!(difference("a\nb\n", "a\n").is_some());
        assert!(difference("", "a\n").is_some());
    }

    #[test]
    fn a_program_that_is_not_there_is_an_error() {
        assert!(listed(Path::new("no/such/program"), &[]).is_err());
    }
}
