//! The parts of documents that a program prints: those between the lines
//! `<!-- printed: NAME -->` and `<!-- end: NAME -->`.

use std::path::Path;

use crate::files;
use crate::sizes;
use crate::tables::Tree;

/// A part of a document.
pub struct Part {
    pub document: &'static str,
    name: &'static str,
    print: fn(&Path) -> Result<String, String>,
}

fn rules(root: &Path) -> Result<String, String> {
    Ok(Tree::read(root)?.rules())
}

/// READING.md's tables.
pub const RULES: Part = Part {
    document: "docs/READING.md",
    name: "rules",
    print: rules,
};

/// FIGURES.md's table of sizes.
pub const SIZES: Part = Part {
    document: "docs/FIGURES.md",
    name: "sizes",
    print: sizes::table,
};

/// The document with another text between a part's lines.
fn replaced(document: &str, name: &str, text: &str) -> Result<String, String> {
    let begin = format!("<!-- printed: {name} -->\n");
    let end = format!("<!-- end: {name} -->\n");
    let whole = document.split_once(&begin);
    let parts = whole.and_then(|(before, rest)| Some((before, rest.split_once(&end)?.1)));
    let (before, behind) = parts.ok_or(format!("no part `{name}`"))?;
    Ok(format!("{before}{begin}{text}{end}{behind}"))
}

impl Part {
    /// The document as it is, and as it is with this part printed anew.
    pub fn both(&self, root: &Path) -> Result<(String, String), String> {
        let stored = files::read(&root.join(self.document))?;
        let printed = replaced(&stored, self.name, &(self.print)(root)?)
            .map_err(|why| format!("{}: {why}", self.document))?;
        Ok((stored, printed))
    }
}

#[cfg(test)]
mod tests {
    use super::*;

    #[test]
    fn a_part_is_replaced() {
        let document = "a\n<!-- printed: x -->\nold\n<!-- end: x -->\nb\n";
        let printed = replaced(document, "x", "new\n").expect("a document");
        assert_eq!(printed, "a\n<!-- printed: x -->\nnew\n<!-- end: x -->\nb\n");
        assert!(replaced(document, "y", "new\n").is_err());
    }
}
