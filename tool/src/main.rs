//! The command line of the tool `table`: which command, which input, and the exit status. Each command is a short way through the library beside this
//! file.
use std::env::args_os;
use std::ffi::{OsStr, OsString};
use std::process::ExitCode;
use table::answer::answer;
use table::ending::{say, Ending, FAILED};
use table::given::Given;
use table::picture::picture;
use table::streams::{read, shown, write, Input, STANDARD};
use table::write_text::write_text;

const USAGE: &str = include_str!("../usage.txt");

/// The output, and the table that it was made from.
type Made = Result<(Vec<u8>, Given), String>;

enum Asked {
    Help,
    Command(fn(Input) -> Made, OsString),
}

fn main() -> ExitCode {
    let words: Vec<OsString> = args_os().skip(1).collect();
    let ended = match asked(&words) {
        Err(wrong) => {
            say(&format!("table: {wrong}\n{USAGE}"));
            return ExitCode::from(FAILED);
        }
        Ok(Asked::Help) => write(USAGE.as_bytes()).map(|()| Vec::new()),
        Ok(Asked::Command(command, file)) => run(command, &file),
    };
    ended.map_or_else(Ending::failed, Ending::done).told("table")
}

/// All of the output is made before any is written, so an error leaves standard output empty. The answer is the warnings.
fn run(command: fn(Input) -> Made, file: &OsStr) -> Result<Vec<String>, String> {
    let (output, given) = command(read(file)?)?;
    write(&output)?;
    Ok(given.warnings())
}

/// What is asked for, or what is wrong with the words.
fn asked(words: &[OsString]) -> Result<Asked, String> {
    let (options, names) = split(words);
    if let Some(option) = options.first() {
        return match option.to_str() {
            Some("-h" | "--help") => Ok(Asked::Help),
            _ => Err(format!("unknown option {}", shown(option))),
        };
    }
    match names.as_slice() {
        [] => Err("no command is named".to_string()),
        [word] if *word == "help" => Ok(Asked::Help),
        [word, file @ ..] => {
            let command = command(word).ok_or_else(|| format!("unknown command {}", shown(word)))?;
            match file {
                [file] if !file.is_empty() => Ok(Asked::Command(command, file.to_os_string())),
                [] | [_] => Err("no file is named".to_string()),
                _ => Err("more than one file is named".to_string()),
            }
        }
    }
}

/// Options and names. `--` ends the options, and `-` is none.
fn split(words: &[OsString]) -> (Vec<&OsStr>, Vec<&OsStr>) {
    let end = words.iter().position(|word| word == "--");
    let (before, after) = words.split_at(end.unwrap_or(words.len()));
    let is_option = |word: &&OsStr| word.as_encoded_bytes().starts_with(b"-") && *word != STANDARD;
    let (options, mut names): (Vec<&OsStr>, Vec<&OsStr>) = before.iter().map(OsString::as_os_str).partition(is_option);
    names.extend(after.iter().skip(1).map(OsString::as_os_str));
    (options, names)
}

fn command(word: &OsStr) -> Option<fn(Input) -> Made> {
    match word.to_str()? {
        "make" => Some(make),
        "show" => Some(show),
        "picture" => Some(draw),
        _ => None,
    }
}

fn make(input: Input) -> Made {
    let given = Given::text(input)?;
    Ok((given.table.clone(), given))
}

fn show(input: Input) -> Made {
    let given = Given::table_file(input);
    Ok((write_text(given.content()?).into(), given))
}

fn draw(input: Input) -> Made {
    let given = Given::either(input)?;
    let content = given.content()?;
    let answer = answer(&given.table).map_err(|refusal| given.refused(refusal))?;
    Ok((picture(content, &answer).into(), given))
}
