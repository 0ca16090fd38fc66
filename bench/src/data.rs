//! The encodings that are measured, and the published indexes as lent tables.

use support::data::{ranges, single_byte, BIG5, EUC_KR, GB18030, JIS0208, JIS0212, KATAKANA};
use support::{Tables, NO_TABLES};

#[derive(Clone, Copy, Debug, PartialEq, Eq)]
pub enum Encoding {
    Utf8,
    Windows1251,
    Windows1252,
    Gbk,
    Gb18030,
    Big5,
    EucJp,
    Iso2022Jp,
    ShiftJis,
    EucKr,
    Utf16Le,
}

use Encoding::*;

pub const ENCODINGS: [Encoding; 11] = [
    Utf8,
    Windows1251,
    Windows1252,
    Gbk,
    Gb18030,
    Big5,
    EucJp,
    Iso2022Jp,
    ShiftJis,
    EucKr,
    Utf16Le,
];

impl Encoding {
    /// The library's number.
    pub fn number(self) -> u8 {
        match self {
            Utf8 => 0,
            Windows1251 => 20,
            Windows1252 => 21,
            Gbk => 29,
            Gb18030 => 30,
            Big5 => 31,
            EucJp => 32,
            Iso2022Jp => 33,
            ShiftJis => 34,
            EucKr => 35,
            Utf16Le => 38,
        }
    }

    pub fn name(self) -> &'static str {
        match self {
            Utf8 => "utf-8",
            Windows1251 => "windows-1251",
            Windows1252 => "windows-1252",
            Gbk => "gbk",
            Gb18030 => "gb18030",
            Big5 => "big5",
            EucJp => "euc-jp",
            Iso2022Jp => "iso-2022-jp",
            ShiftJis => "shift_jis",
            EucKr => "euc-kr",
            Utf16Le => "utf-16le",
        }
    }

    /// glibc's name of the converter that is nearest to the standard's encoding.
    pub fn iconv(self) -> &'static str {
        match self {
            Utf8 => "UTF-8",
            Windows1251 => "CP1251",
            Windows1252 => "CP1252",
            Gbk => "GBK",
            Gb18030 => "GB18030",
            Big5 => "BIG5-HKSCS",
            EucJp => "EUC-JP-MS",
            Iso2022Jp => "ISO-2022-JP",
            ShiftJis => "CP932",
            EucKr => "UHC",
            Utf16Le => "UTF-16LE",
        }
    }

    /// The bytes of the smallest unit that a reader can skip.
    pub fn unit(self) -> usize {
        if self == Utf16Le {
            2
        } else {
            1
        }
    }
}

pub struct Indexes {
    windows_1251: Vec<u32>,
    pub windows_1252: Vec<u32>,
    pub gb18030: Vec<u32>,
    pub ranges: Vec<u32>,
    pub big5: Vec<u32>,
    pub jis0208: Vec<u32>,
    jis0212: Vec<u32>,
    katakana: Vec<u32>,
    pub euc_kr: Vec<u32>,
}

impl Indexes {
    pub fn read() -> Result<Indexes, String> {
        Ok(Indexes {
            windows_1251: single_byte("windows-1251").table()?,
            windows_1252: single_byte("windows-1252").table()?,
            gb18030: GB18030.table()?,
            ranges: ranges()?,
            big5: BIG5.table()?,
            jis0208: JIS0208.table()?,
            jis0212: JIS0212.table()?,
            katakana: KATAKANA.table()?,
            euc_kr: EUC_KR.table()?,
        })
    }

    /// What the library is lent for an encoding.
    pub fn tables(&self, encoding: Encoding) -> Tables<'_> {
        let (first, second): (&[u32], &[u32]) = match encoding {
            Utf8 | Windows1252 | Utf16Le => return NO_TABLES,
            Windows1251 => (&self.windows_1251, &[]),
            Gbk | Gb18030 => (&self.gb18030, &self.ranges),
            Big5 => (&self.big5, &[]),
            EucJp => (&self.jis0208, &self.jis0212),
            Iso2022Jp | ShiftJis => (&self.jis0208, &[]),
            EucKr => (&self.euc_kr, &[]),
        };
        Tables { first, second }
    }

    /// The same for writing: in ISO-2022-JP with the katakana.
    pub fn writer_tables(&self, encoding: Encoding) -> Tables<'_> {
        let tables = self.tables(encoding);
        match encoding {
            Iso2022Jp => Tables {
                second: &self.katakana,
                ..tables
            },
            _ => tables,
        }
    }
}
