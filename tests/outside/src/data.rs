//! The published indexes as lent tables.

use crate::reference::WINDOWS_1252;
use support::data::{self, single_byte, Index};
use support::{calls, Tables};

/// A table filled line by line through the library.
fn table(index: Index, entries: &mut usize) -> Result<Vec<u32>, String> {
    let mut table = vec![0; index.cells];
    for line in index.text()?.split('\n') {
        let answer = calls::index_line(line.as_bytes(), &mut table);
        if answer.refusal != 0 {
            let refusal = answer.refusal;
            return Err(format!("index {}, {line}: refusal {refusal}", index.name));
        }
        *entries += usize::from(answer.entry);
    }
    if index.table()? != table {
        let name = index.name;
        return Err(format!("index {name}: the table is not that of the file"));
    }
    Ok(table)
}

/// Sets the reference's index of windows-1252.
pub fn read_windows_1252() -> Result<(), String> {
    let index = single_byte("windows-1252").table()?;
    WINDOWS_1252.get_or_init(|| index);
    Ok(())
}

/// The tables of every encoding.
pub struct Published {
    tables: Vec<(Vec<u32>, Vec<u32>)>,
    katakana: Vec<u32>,
    pub entries: usize,
}

impl Published {
    pub fn read() -> Result<Published, String> {
        read_windows_1252()?;
        let mut entries = 0;
        let mut tables = Vec::new();
        for encoding in 0..40u8 {
            tables.push(Self::of(encoding, &mut entries)?);
        }
        let katakana = table(data::KATAKANA, &mut entries)?;
        Ok(Published {
            tables,
            katakana,
            entries,
        })
    }

    fn of(encoding: u8, entries: &mut usize) -> Result<(Vec<u32>, Vec<u32>), String> {
        let mut table = |index| table(index, entries);
        Ok(match encoding {
            21 => Default::default(),
            1..=28 => {
                let name = name(encoding).to_lowercase();
                let index = if encoding == 9 { "iso-8859-8" } else { &name };
                (table(single_byte(index))?, Vec::new())
            }
            29 | 30 => (table(data::GB18030)?, data::ranges()?),
            31 => (table(data::BIG5)?, Vec::new()),
            32 => (table(data::JIS0208)?, table(data::JIS0212)?),
            33 | 34 => (table(data::JIS0208)?, Vec::new()),
            35 => (table(data::EUC_KR)?, Vec::new()),
            _ => Default::default(),
        })
    }

    pub fn tables(&self, encoding: u8) -> Tables<'_> {
        let (first, second) = &self.tables[usize::from(encoding)];
        Tables { first, second }
    }
}

impl Published {
    /// The tables for writing: those for reading, and in ISO-2022-JP the katakana.
    pub fn writer_tables(&self, encoding: u8) -> Tables<'_> {
        let tables = self.tables(encoding);
        match encoding {
            33 => Tables {
                second: &self.katakana,
                ..tables
            },
            _ => tables,
        }
    }
}

/// The name of an encoding.
pub fn name(encoding: u8) -> String {
    let mut room = [0; 14];
    let answer = calls::name(encoding, &mut room);
    String::from_utf8_lossy(&room[..answer.length]).into_owned()
}
