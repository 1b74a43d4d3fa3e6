//! The arguments: `bench [--quick] [--markdown]`.

pub struct Options {
    pub quick: bool,
    pub markdown: bool,
}

pub fn read(arguments: impl Iterator<Item = String>) -> Result<Options, String> {
    let mut options = Options {
        quick: false,
        markdown: false,
    };
    for argument in arguments {
        match argument.as_str() {
            "--quick" => options.quick = true,
            "--markdown" => options.markdown = true,
            _ => return Err(format!("unknown argument {argument:?}: use --quick or --markdown, or none")),
        }
    }
    Ok(options)
}
