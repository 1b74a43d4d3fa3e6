//! Runs a proved program on a table, and takes what it prints apart. Reads docs/RULES.md, "What the programs print". A program has no exit status to
//! set, so a refusal shows in its text alone.
use lasso::Refusal;
use std::ffi::OsStr;
use std::io::Write;
use std::process::{Command, Output, Stdio};
use std::thread;

/// All that the program writes to standard output. Whatever else it does is an error.
pub fn run(program: &OsStr, table: &[u8]) -> Result<Vec<u8>, String> {
    let done = piped(program, table).map_err(|error| format!("cannot run {}: {error}", program.to_string_lossy()))?;
    if !done.stderr.is_empty() {
        return Err(format!("the program said: {}", String::from_utf8_lossy(&done.stderr).trim_end()));
    }
    if !done.status.success() {
        return Err(format!("the program failed: {}", done.status));
    }
    Ok(done.stdout)
}

/// A program that has read enough closes the pipe, so the writer beside it may fail.
fn piped(program: &OsStr, table: &[u8]) -> std::io::Result<Output> {
    let mut command = Command::new(program);
    let mut child = command.stdin(Stdio::piped()).stdout(Stdio::piped()).stderr(Stdio::piped()).spawn()?;
    let pipe = child.stdin.take();
    thread::scope(|scope| {
        scope.spawn(move || pipe.map(|mut pipe| pipe.write_all(table)));
        child.wait_with_output()
    })
}

/// The refusal in what verdict printed: its only line, or line four of an accepted table that has too many slots for the program's buffers.
pub fn refusal_in_verdict(text: &[u8]) -> Result<Option<Refusal>, String> {
    let wrong = || "the program's answer is not a verdict".to_string();
    let text = std::str::from_utf8(text).map_err(|_| wrong())?;
    match *text.lines().collect::<Vec<_>>() {
        [_, _, _, "holds"] => Ok(None),
        [_, _, _, lasso, run] if lasso.starts_with("lasso ") && run.starts_with("run ") => Ok(None),
        [line] | [_, _, _, line] => refusal_of(line).map(Some).ok_or_else(wrong),
        _ => Err(wrong()),
    }
}

/// The refusal that translate printed, if it did. Otherwise the answer must have as many bytes as the quote says.
pub fn refusal_in_translation(answer: &[u8], table: &[u8]) -> Result<Option<Refusal>, String> {
    let line = std::str::from_utf8(answer).ok().and_then(|text| text.strip_suffix('\n'));
    if let Some(refusal) = line.and_then(refusal_of) {
        return Ok(Some(refusal));
    }
    match lasso::quote(table) {
        Ok(sheet) if sheet.bytes == answer.len() => Ok(None),
        _ => Err("the program's answer is not a translation".to_string()),
    }
}

/// `refused`, number, place.
fn refusal_of(line: &str) -> Option<Refusal> {
    let (number, place) = line.strip_prefix("refused ")?.split_once(' ')?;
    Some(Refusal {
        number: number.parse().ok()?,
        place: place.parse().ok()?,
    })
}

#[cfg(test)]
mod tests {
    use super::*;

    #[test]
    fn a_refusal_stands_alone_or_in_line_four() {
        let refused = |number, place| Ok(Some(Refusal { number, place }));
        assert_eq!(refusal_in_verdict(b"refused 6 4\n"), refused(6, 4));
        assert_eq!(refusal_in_verdict(b"size 1 2 3\nboard A\nmembers 0 0 0 0\nrefused 9 0\n"), refused(9, 0));
        assert_eq!(refusal_in_verdict(b"size 1 2 3\nboard A\nmembers 0 0 0 0\nholds\n"), Ok(None));
        assert_eq!(refusal_in_verdict(b"size 1 2 3\nboard A\nmembers 0 0 0 0\nlasso 0 0\nrun 0\n"), Ok(None));
    }

    #[test]
    fn any_other_text_is_no_verdict() {
        let texts = [
            "",
            "holds\n",
            "refused 6\n",
            "a\nb\nc\nlasso 0 0\n",
            "a\nb\nc\nd\n",
            "a\nb\nholds\n",
            "a\nb\nc\nholds\nrun 0\n",
        ];
        for text in texts {
            assert!(refusal_in_verdict(text.as_bytes()).is_err(), "{text}");
        }
        assert!(refusal_in_verdict(b"\xff\n").is_err());
    }

    #[test]
    fn what_a_program_does_but_print_is_an_error() {
        // More than a pipe holds, so the reading and the writing must go on side by side.
        let table = vec![7; 1 << 20];
        let run = |program: &str| run(OsStr::new(program), &table);
        assert_eq!(run("cat").unwrap(), table);
        assert_eq!(run("false").unwrap_err(), "the program failed: exit status: 1");
        assert!(run("no/such program").unwrap_err().starts_with("cannot run no/such program: "));
    }
}
