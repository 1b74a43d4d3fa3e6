//! A table as it is given: as a table file or as text. Its content is there where the library accepts it; a wrong text is no table at all.
use crate::content::Content;
use crate::read_file::read_file;
use crate::read_text::read_text;
use crate::recognise::is_table_file;
use crate::refusal::in_words;
use crate::streams::Input;
use crate::warnings::warnings;
use crate::write_file::write_file;
use lasso::Refusal;

pub struct Given {
    name: String,
    pub table: Vec<u8>,
    content: Result<Content, Refusal>,
}

impl Given {
    pub fn table_file(input: Input) -> Given {
        Given {
            content: read_file(&input.bytes),
            name: input.name,
            table: input.bytes,
        }
    }

    pub fn text(input: Input) -> Result<Given, String> {
        match read_text(&input.bytes) {
            Err(error) => Err(format!("{} line {}: {}", input.name, error.line, error.message)),
            Ok(content) => Ok(Given {
                name: input.name,
                table: write_file(&content),
                content: Ok(content),
            }),
        }
    }

    pub fn either(input: Input) -> Result<Given, String> {
        if is_table_file(&input.bytes) {
            Ok(Given::table_file(input))
        } else {
            Given::text(input)
        }
    }

    pub fn content(&self) -> Result<&Content, String> {
        self.content.as_ref().map_err(|refusal| self.refused(*refusal))
    }

    /// The one place where a refusal is put into words.
    pub fn refused(&self, refusal: Refusal) -> String {
        format!("{}: {}", self.name, in_words(refusal))
    }

    /// A refused table has none.
    pub fn warnings(&self) -> Vec<String> {
        let found = self.content.as_ref().map_or(Vec::new(), warnings);
        found.iter().map(|warning| format!("{}: warning: {warning}", self.name)).collect()
    }
}
