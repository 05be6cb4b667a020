//! What is told of a file that was written.

use std::path::Path;

use crate::best::Sizes;
use crate::failure::{say, Failure};
use crate::json::Object;
use crate::output::print;
use crate::sha256::Digest;
use crate::text::{counted, hex, named};

/// What is told of a file that was written.
pub struct Report<'a> {
    pub path: &'a Path,
    /// Lines before.
    pub before: String,
    pub count: u64,
    pub noun: &'static str,
    pub bytes: u64,
    pub remark: String,
    /// Pairs of which another with the same id was kept.
    pub left_out: u64,
    /// The edition written, and what each would take if they were compared.
    pub editions: Option<(u64, Option<Sizes>)>,
    pub digest: Digest,
    pub to_standard: bool,
    pub json: bool,
}

impl Report<'_> {
    /// On standard output, or on standard error where the output itself is there.
    pub fn tell(self) -> Result<(), Failure> {
        let name = match self.to_standard {
            true => "standard output".to_string(),
            false => named(self.path),
        };
        let line = match self.json {
            true => self.json(),
            false => self.text(&name),
        };
        if self.to_standard {
            say(&line);
            return Ok(());
        }
        match print(&line) {
            // The file is written; who does not listen need not hear of it.
            Err(Failure::OutputClosed) => Ok(()),
            Err(Failure::Trouble(trouble)) => {
                Err(Failure::Trouble(format!("{trouble}; {name} is written")))
            }
            result => result,
        }
    }

    fn text(&self, name: &str) -> String {
        let (count, bytes) = (counted(self.count, self.noun), counted(self.bytes, "byte"));
        let (before, remark, digest) = (&self.before, &self.remark, hex(&self.digest));
        format!("{before}{name}: {count} in {bytes}{remark}, SHA-256 {digest}\n")
    }

    fn json(&self) -> String {
        let object = Object::new().file("file", self.path);
        let object = object.text("status", "written");
        let object = object.number(&format!("{}s", self.noun), self.count);
        let object = object.number("bytes", self.bytes);
        let object = match self.left_out {
            0 => object,
            count => object.number("left_out", count),
        };
        let object = match &self.editions {
            None => object,
            Some((edition, sizes)) => {
                let object = object.number("edition", *edition);
                match sizes {
                    Some(sizes) => object.objects("editions", sizes.objects()),
                    None => object,
                }
            }
        };
        object.text("sha256", &hex(&self.digest)).line()
    }
}
