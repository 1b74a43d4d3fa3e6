//! What the scripts `verdict` and `translate` run once all is built: it puts a table before a proved program, and tells what comes back. The answer
//! is the program's own; here stand the reading, the words of a refusal, the warnings, the writing and the exit status.
use lasso::number::{SHORT_OUTPUT, SHORT_REPORT, SHORT_WORKSPACE};
use std::env::args_os;
use std::ffi::{OsStr, OsString};
use std::process::ExitCode;
use table::ending::{say, Ending, FAILED};
use table::given::Given;
use table::program::{refusal_in_translation, refusal_in_verdict, run};
use table::save::save;
use table::streams::{read, shown, write, STANDARD};

const USAGE: &str = "\
usage: ask verdict PROGRAM FILE            what the script verdict runs
       ask translate PROGRAM FILE OUTPUT   what the script translate runs
PROGRAM is the proved program. FILE is a table file or a text, and OUTPUT a file; - is standard input or output.
";

fn main() -> ExitCode {
    let words: Vec<OsString> = args_os().skip(1).collect();
    let words: Vec<&OsStr> = words.iter().map(OsString::as_os_str).collect();
    let (name, ended) = match *words {
        [name, program, file] if name == "verdict" => ("verdict", verdict(program, file)),
        [name, program, file, output] if name == "translate" => ("translate", translate(program, file, output)),
        _ => {
            say(USAGE);
            return ExitCode::from(FAILED);
        }
    };
    ended.unwrap_or_else(Ending::failed).told(name)
}

/// A refusal is an answer too: verdict's text is written as it is.
fn verdict(program: &OsStr, file: &OsStr) -> Result<Ending, String> {
    let given = Given::either(read(file)?)?;
    let text = run(program, &given.table)?;
    let refusal = refusal_in_verdict(&text)?;
    write(&text)?;
    Ok(ending(&given, refusal))
}

/// A refusal writes no output.
fn translate(program: &OsStr, file: &OsStr, output: &OsStr) -> Result<Ending, String> {
    let given = Given::either(read(file)?)?;
    let answer = run(program, &given.table)?;
    let refusal = refusal_in_translation(&answer, &given.table)?;
    if refusal.is_none() {
        write_to(output, &answer)?;
    }
    Ok(ending(&given, refusal))
}

fn write_to(output: &OsStr, bytes: &[u8]) -> Result<(), String> {
    if output == STANDARD {
        return write(bytes);
    }
    save(output, bytes).map_err(|error| format!("cannot write {}: {error}", shown(output)))
}

fn ending(given: &Given, refusal: Option<lasso::Refusal>) -> Ending {
    let warnings = given.warnings();
    match refusal {
        None => Ending::done(warnings),
        Some(refusal) => Ending {
            lines: [vec![given.refused(refusal) + whose_buffers(refusal)], warnings].concat(),
            status: FAILED,
        },
    }
}

/// Three lines of the refusal list are about lent buffers, and the client lent none.
fn whose_buffers(refusal: lasso::Refusal) -> &'static str {
    match refusal.number {
        SHORT_WORKSPACE | SHORT_REPORT | SHORT_OUTPUT => " (these are the program's own buffers; the library takes longer ones)",
        _ => "",
    }
}
