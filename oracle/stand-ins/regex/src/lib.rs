//! In place of regex: what `strip_comments` needs to compile. Images have no comments, so nothing calls it.

use std::borrow::Cow;

pub struct Regex;

impl Regex {
    pub fn new(_: &str) -> Result<Regex, ()> {
        Ok(Regex)
    }

    pub fn replace_all<'t>(&self, _: &'t str, _: &str) -> Cow<'t, str> {
        unreachable!("no source text is read here")
    }
}
