//! The files of `tests/data`, and the published indexes, read without the library.

use std::fs;
use std::path::PathBuf;

/// A published index: the name in its file's name, and the cells of its table.
#[derive(Clone, Copy)]
pub struct Index<'a> {
    pub name: &'a str,
    pub cells: usize,
}

pub const GB18030: Index = index("gb18030", 23940);
pub const BIG5: Index = index("big5", 19782);
pub const JIS0208: Index = index("jis0208", 11280);
pub const JIS0212: Index = index("jis0212", 8836);
pub const EUC_KR: Index = index("euc-kr", 23940);
pub const KATAKANA: Index = index("iso-2022-jp-katakana", 63);

const fn index(name: &str, cells: usize) -> Index<'_> {
    Index { name, cells }
}

/// The index of a single-byte encoding.
pub const fn single_byte(name: &str) -> Index<'_> {
    index(name, 128)
}

impl Index<'_> {
    /// The text of the index file.
    pub fn text(self) -> Result<String, String> {
        read(&format!("indexes/index-{}.txt", self.name))
    }

    /// The table that the file gives.
    pub fn table(self) -> Result<Vec<u32>, String> {
        let mut table = vec![0; self.cells];
        for (pointer, code_point) in pairs(self.name)? {
            table[pointer as usize] = code_point;
        }
        Ok(table)
    }
}

pub fn path(name: &str) -> PathBuf {
    PathBuf::from(env!("CARGO_MANIFEST_DIR"))
        .join("../data")
        .join(name)
}

pub fn read(name: &str) -> Result<String, String> {
    fs::read_to_string(path(name)).map_err(|error| format!("{name}: {error}"))
}

/// The lines of a file that are no comments.
pub fn lines(text: &str) -> impl Iterator<Item = &str> {
    text.lines()
        .filter(|line| !line.is_empty() && !line.starts_with('#'))
}

/// The pairs of an index file.
fn pairs(index: &str) -> Result<Vec<(u32, u32)>, String> {
    let text = read(&format!("indexes/index-{index}.txt"))?;
    let mut pairs = Vec::new();
    for line in lines(&text) {
        let mut fields = line.split('\t');
        let pointer = fields.next().and_then(|field| field.trim().parse().ok());
        let code_point = fields
            .next()
            .and_then(|field| u32::from_str_radix(field.trim_start_matches("0x"), 16).ok());
        match (pointer, code_point) {
            (Some(pointer), Some(code_point)) => pairs.push((pointer, code_point)),
            _ => return Err(format!("index {index}: {line}")),
        }
    }
    Ok(pairs)
}

/// The ranges of gb18030: pointer and code point in turn.
pub fn ranges() -> Result<Vec<u32>, String> {
    let pairs = pairs("gb18030-ranges")?.into_iter();
    Ok(pairs
        .flat_map(|(pointer, code_point)| [pointer, code_point])
        .collect())
}
