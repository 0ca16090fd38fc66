//! The labels, decoders and encoders of the Encoding Standard, and a reader of options lists: a safe wrapper of the proved
//! library `hamvukile`.
//!
//! The library allocates nothing and keeps nothing between calls: text goes in and out through lent slices, and the
//! index tables of the standard are the caller's, lent to each call that may read them ([`Tables`]).
//!
//! ```
//! use hamvukile::{Decoder, Encoding, Mark, OnError, Tables};
//!
//! let encoding = Encoding::from_label(b" Latin1").unwrap();
//! assert_eq!(encoding.name().as_str(), "windows-1252");
//!
//! let mut decoder = Decoder::new(encoding, OnError::Replace, Mark::Drop);
//! let mut room = [0; 8];
//! let n = decoder.feed(b"\x80\x09A", &Tables::none(), &mut room).unwrap();
//! assert_eq!(room[..n], [0x20AC, 0x09, 0x41]);
//! let mut last = [0; 3];
//! assert_eq!(decoder.finish(&Tables::none(), &mut last), Ok(0));
//! ```
#![warn(missing_docs)]

// The tests and the benchmark use all of the calls, this wrapper some.
#[allow(dead_code)]
mod calls;
#[allow(dead_code)]
mod ffi;

use std::borrow::Cow;
use std::fmt;
use std::ops::Deref;

/// The longest chunk that [`Decoder::feed`] takes, and the longest text that [`check`] takes, in bytes.
pub const MAX_CHUNK: usize = 65_536;
/// The most scalars that [`encode`] and [`Encoder::encode`] take.
pub const MAX_SCALARS: usize = 16_384;
/// The longest line that [`index_line`] takes, in bytes.
pub const MAX_LINE: usize = 1_024;
/// The most bytes that a decoder holds.
pub const MAX_HELD: usize = 3;
/// The most bytes that a decoder takes in all.
pub const MAX_TAKEN: u32 = u32::MAX;
/// The most bytes that [`Encoder::encode`] writes for a scalar: in ISO-2022-JP an escape sequence and a reference.
pub const MAX_BYTES_OF_A_SCALAR: usize = 13;
/// The most bytes that [`Encoder::finish`] writes.
pub const MAX_FINISH: usize = 3;
/// The cells of an option that [`read_list`] writes.
pub const OPTION_CELLS: usize = 5;
const MAX_NAME: usize = 14;

/// Bytes of the name of an index file, at most.
const MAX_INDEX_NAME: usize = 30;

/// The version of the library that is linked: 10,000 times major, 100 times minor, and patch.
///
/// ```
/// assert_eq!(hamvukile::version(), 1000); // 0.10.0
/// ```
pub fn version() -> u32 {
    calls::version()
}

/// Why a call was refused, by the library's numbers.
#[derive(Clone, Copy, Debug, PartialEq, Eq, Hash)]
#[non_exhaustive]
#[repr(u8)]
pub enum Refusal {
    /// The standard's table has no such label.
    UnknownLabel = 1,
    /// The encoding number is above 39.
    UnknownEncoding = 2,
    /// The mode is above 1, or the rule for the byte order mark above 2.
    UnknownMode = 3,
    /// A lent table has not the length that the encoding asks for.
    WrongTable = 4,
    /// No opening and no feed leave a decoder with these fields.
    ForgedDecoder = 5,
    /// The decoder has ended.
    EndedDecoder = 6,
    /// The lent room is smaller than the call asks for.
    SmallRoom = 7,
    /// A chunk, a list of scalars or a line is above its limit.
    TooLong = 8,
    /// This encoding can be read, and not written.
    NoEncoder = 9,
    /// Among the numbers to write is one that is no scalar.
    NotScalar = 10,
    /// An error was met where errors are refused. What stands before it is written.
    Malformed = 11,
    /// The line is no line of an index file.
    BadLine = 12,
    /// The line's pointer is not below the table's length, or its cell is not 0.
    TakenCell = 13,
    /// With this chunk the decoder would have taken more than [`MAX_TAKEN`] bytes.
    TooMuch = 14,
    /// A reverse index has not the length that its table asks for.
    WrongIndex = 15,
    /// A line of a list has no tab, or several.
    BadOptionLine = 16,
    /// The name of a line of a list is empty, or none of the known names.
    UnknownOption = 17,
    /// An earlier line of the list has the same name.
    RepeatedOption = 18,
}

impl Refusal {
    /// The refusal's number.
    pub fn number(self) -> u8 {
        self as u8
    }

    fn of(number: u8) -> Refusal {
        match number {
            1 => Refusal::UnknownLabel,
            2 => Refusal::UnknownEncoding,
            3 => Refusal::UnknownMode,
            4 => Refusal::WrongTable,
            5 => Refusal::ForgedDecoder,
            6 => Refusal::EndedDecoder,
            7 => Refusal::SmallRoom,
            8 => Refusal::TooLong,
            9 => Refusal::NoEncoder,
            10 => Refusal::NotScalar,
            11 => Refusal::Malformed,
            12 => Refusal::BadLine,
            13 => Refusal::TakenCell,
            14 => Refusal::TooMuch,
            15 => Refusal::WrongIndex,
            16 => Refusal::BadOptionLine,
            17 => Refusal::UnknownOption,
            18 => Refusal::RepeatedOption,
            _ => unreachable!("the library has no refusal {number}"),
        }
    }
}

impl fmt::Display for Refusal {
    fn fmt(&self, f: &mut fmt::Formatter<'_>) -> fmt::Result {
        f.write_str(match self {
            Refusal::UnknownLabel => "unknown label",
            Refusal::UnknownEncoding => "encoding number above 39",
            Refusal::UnknownMode => "mode above 1 or rule above 2",
            Refusal::WrongTable => "a lent table has not the length that the encoding asks for",
            Refusal::ForgedDecoder => "not a decoder that calls leave",
            Refusal::EndedDecoder => "the decoder has ended",
            Refusal::SmallRoom => "the lent room is too small",
            Refusal::TooLong => "the input is above its limit",
            Refusal::NoEncoder => "no encoder for this encoding",
            Refusal::NotScalar => "a number that is no scalar",
            Refusal::Malformed => "malformed text, or a scalar that cannot be written",
            Refusal::BadLine => "not a line of an index file",
            Refusal::TakenCell => "no free cell at the line's pointer",
            Refusal::TooMuch => "a decoder takes at most 4,294,967,295 bytes",
            Refusal::WrongIndex => "a reverse index of the wrong length",
            Refusal::BadOptionLine => "not one tab",
            Refusal::UnknownOption => "an unknown name",
            Refusal::RepeatedOption => "a name that an earlier line has",
        })
    }
}

/// What a call answers that was refused, or that met an error where errors are refused.
#[derive(Clone, Copy, Debug, PartialEq, Eq)]
#[non_exhaustive]
pub struct Error {
    /// Why.
    pub refusal: Refusal,
    /// With [`Refusal::Malformed`] how much is written at the front of the room; else 0, and nothing is written.
    pub written: usize,
    /// With [`Refusal::Malformed`] of an encoder the index of the scalar that cannot be written; else 0.
    pub index: usize,
    /// With [`Refusal::Malformed`] of a decoder the bytes taken since it was made before the first byte of the sequence at
    /// fault; else 0.
    pub place: u32,
    /// With [`Refusal::Malformed`] of a decoder the line that the sequence is in: one plus the line feeds before it; else 0.
    pub line: u32,
}

impl fmt::Display for Error {
    fn fmt(&self, f: &mut fmt::Formatter<'_>) -> fmt::Result {
        match (self.refusal, self.line) {
            (Refusal::Malformed, 0) => write!(f, "scalar {} cannot be written", self.index),
            (Refusal::Malformed, line) => {
                let place = self.place;
                Fault { place, line }.fmt(f)
            }
            (refusal, _) => refusal.fmt(f),
        }
    }
}

impl std::error::Error for Error {}

/// A refused call that wrote nothing.
fn refused(refusal: u8) -> Error {
    Error {
        refusal: Refusal::of(refusal),
        written: 0,
        index: 0,
        place: 0,
        line: 0,
    }
}

/// What a decoder's call comes to.
fn decoded(answer: &ffi::Reply) -> Result<usize, Error> {
    match answer.refusal {
        0 => Ok(answer.written),
        n => Err(Error {
            written: answer.written,
            place: answer.place,
            line: answer.line,
            ..refused(n)
        }),
    }
}

/// One of the 40 encodings.
///
/// ```
/// use hamvukile::Encoding;
///
/// let encoding = Encoding::from_label(b"  sjis\n").unwrap();
/// assert_eq!(encoding, Encoding::SHIFT_JIS);
/// assert_eq!(encoding.number(), 34);
/// assert_eq!(encoding.name().as_str(), "Shift_JIS");
/// assert_eq!(Encoding::from_label(b"klingon"), None);
/// assert_eq!(Encoding::from_number(40), None);
/// ```
#[derive(Clone, Copy, Debug, PartialEq, Eq, Hash, PartialOrd, Ord)]
pub struct Encoding(u8);

impl Encoding {
    /// UTF-8.
    pub const UTF_8: Encoding = Encoding(0);
    /// windows-1252, whose table is built in.
    pub const WINDOWS_1252: Encoding = Encoding(21);
    /// GBK.
    pub const GBK: Encoding = Encoding(29);
    /// gb18030.
    pub const GB18030: Encoding = Encoding(30);
    /// Big5.
    pub const BIG5: Encoding = Encoding(31);
    /// EUC-JP.
    pub const EUC_JP: Encoding = Encoding(32);
    /// ISO-2022-JP.
    pub const ISO_2022_JP: Encoding = Encoding(33);
    /// Shift_JIS.
    pub const SHIFT_JIS: Encoding = Encoding(34);
    /// EUC-KR.
    pub const EUC_KR: Encoding = Encoding(35);
    /// replacement.
    pub const REPLACEMENT: Encoding = Encoding(36);
    /// UTF-16BE.
    pub const UTF_16BE: Encoding = Encoding(37);
    /// UTF-16LE.
    pub const UTF_16LE: Encoding = Encoding(38);
    /// x-user-defined.
    pub const X_USER_DEFINED: Encoding = Encoding(39);

    /// The encoding with this number, 0 to 39.
    pub fn from_number(number: u8) -> Option<Encoding> {
        (number <= 39).then_some(Encoding(number))
    }

    /// The encoding's number.
    pub fn number(self) -> u8 {
        self.0
    }

    /// The encoding of a label. White space at both ends and the case of ASCII letters do not matter.
    pub fn from_label(label: &[u8]) -> Option<Encoding> {
        Encoding::find(label).map(|found| found.0)
    }

    /// The encoding of a label, and the label without the white space at both ends.
    ///
    /// ```
    /// use hamvukile::Encoding;
    ///
    /// assert_eq!(Encoding::find(b" UTF8\r\n"), Some((Encoding::UTF_8, &b"UTF8"[..])));
    /// ```
    pub fn find(label: &[u8]) -> Option<(Encoding, &[u8])> {
        let found = calls::label(label);
        (found.refusal == 0).then(|| {
            (
                Encoding(found.encoding),
                &label[found.start..found.start + found.length],
            )
        })
    }

    /// The name of the published index file that fills its first table; empty where it has none.
    ///
    /// ```
    /// use hamvukile::Encoding;
    ///
    /// assert_eq!(&*Encoding::SHIFT_JIS.first_index_name(), "index-jis0208.txt");
    /// assert_eq!(&*Encoding::WINDOWS_1252.first_index_name(), "");
    /// ```
    pub fn first_index_name(self) -> IndexName {
        IndexName::by(|room| calls::first_index_name(self.0, room))
    }

    /// The name of the file that fills its second table; empty where it has none. ISO-2022-JP's is for writing only.
    pub fn second_index_name(self) -> IndexName {
        IndexName::by(|room| calls::second_index_name(self.0, room))
    }

    /// The encoding's name.
    pub fn name(self) -> Name {
        let mut bytes = [0; MAX_NAME];
        let named = calls::name(self.0, &mut bytes);
        debug_assert_eq!(named.refusal, 0);
        Name {
            bytes,
            length: named.length,
        }
    }
}

impl fmt::Display for Encoding {
    fn fmt(&self, f: &mut fmt::Formatter<'_>) -> fmt::Result {
        f.write_str(&self.name())
    }
}

/// An encoding's name. It is a `str`.
#[derive(Clone, Copy, PartialEq, Eq)]
pub struct Name {
    bytes: [u8; MAX_NAME],
    length: usize,
}

impl Name {
    /// The name.
    pub fn as_str(&self) -> &str {
        std::str::from_utf8(&self.bytes[..self.length]).expect("a name is ASCII")
    }
}

impl Deref for Name {
    type Target = str;

    fn deref(&self) -> &str {
        self.as_str()
    }
}

impl fmt::Debug for Name {
    fn fmt(&self, f: &mut fmt::Formatter<'_>) -> fmt::Result {
        fmt::Debug::fmt(self.as_str(), f)
    }
}

/// The name of an index file. It is a `str`.
#[derive(Clone, Copy, PartialEq, Eq)]
pub struct IndexName {
    bytes: [u8; MAX_INDEX_NAME],
    length: usize,
}

impl IndexName {
    fn by(call: impl FnOnce(&mut [u8]) -> ffi::Named) -> IndexName {
        let mut bytes = [0; MAX_INDEX_NAME];
        let named = call(&mut bytes);
        debug_assert_eq!(named.refusal, 0);
        IndexName {
            bytes,
            length: named.length,
        }
    }
}

impl Deref for IndexName {
    type Target = str;

    fn deref(&self) -> &str {
        std::str::from_utf8(&self.bytes[..self.length]).expect("a name is ASCII")
    }
}

impl fmt::Debug for IndexName {
    fn fmt(&self, f: &mut fmt::Formatter<'_>) -> fmt::Result {
        fmt::Debug::fmt(&**self, f)
    }
}

/// The two tables that a call is lent. A cell that is not a scalar of at least 0x80 counts as unmapped.
///
/// There is a constructor for each shape, so that a table of a wrong length does not compile:
///
/// ```
/// use hamvukile::Tables;
///
/// let jis0208 = vec![0; 11_280];
/// let tables = Tables::jis0208(jis0208.as_slice().try_into().unwrap());
/// ```
///
/// ```compile_fail
/// # use hamvukile::Tables;
/// let tables = Tables::jis0208(&[0; 11_279]);
/// ```
#[derive(Clone, Copy, Debug)]
pub struct Tables<'a> {
    first: &'a [u32],
    second: &'a [u32],
}

impl<'a> Tables<'a> {
    /// For UTF-8, windows-1252, replacement, UTF-16 and x-user-defined.
    pub const fn none() -> Tables<'static> {
        Tables {
            first: &[],
            second: &[],
        }
    }

    /// For the single-byte encodings other than windows-1252.
    pub const fn single_byte(index: &'a [u32; 128]) -> Tables<'a> {
        Tables {
            first: index,
            second: &[],
        }
    }

    /// For GBK and gb18030: the index, and the ranges as pointer and code point in turn. `None` where the ranges are of
    /// odd length or more than 207 pairs.
    pub fn gb18030(index: &'a [u32; 23_940], ranges: &'a [u32]) -> Option<Tables<'a>> {
        (ranges.len() & 1 == 0 && ranges.len() <= 414).then_some(Tables {
            first: index,
            second: ranges,
        })
    }

    /// For Big5.
    pub const fn big5(index: &'a [u32; 19_782]) -> Tables<'a> {
        Tables {
            first: index,
            second: &[],
        }
    }

    /// For EUC-JP.
    pub const fn euc_jp(jis0208: &'a [u32; 11_280], jis0212: &'a [u32; 8_836]) -> Tables<'a> {
        Tables {
            first: jis0208,
            second: jis0212,
        }
    }

    /// For Shift_JIS, and for decoding ISO-2022-JP. In Shift_JIS the pairs F0 40 to F9 FC are U+E000 to U+E757, for private use, and
    /// the cells at their pointers, 8,836 to 10,715, are not looked at.
    pub const fn jis0208(jis0208: &'a [u32; 11_280]) -> Tables<'a> {
        Tables {
            first: jis0208,
            second: &[],
        }
    }

    /// For encoding in ISO-2022-JP: decoding takes [`Tables::jis0208`].
    pub const fn iso_2022_jp_encoder(
        jis0208: &'a [u32; 11_280],
        katakana: &'a [u32; 63],
    ) -> Tables<'a> {
        Tables {
            first: jis0208,
            second: katakana,
        }
    }

    /// For EUC-KR.
    pub const fn euc_kr(index: &'a [u32; 23_940]) -> Tables<'a> {
        Tables {
            first: index,
            second: &[],
        }
    }

    /// Any two slices. A call refuses them with [`Refusal::WrongTable`] where their lengths do not suit its encoding.
    pub const fn of(first: &'a [u32], second: &'a [u32]) -> Tables<'a> {
        Tables { first, second }
    }
}

/// What a decoder does with malformed text.
#[derive(Clone, Copy, Debug, PartialEq, Eq)]
#[non_exhaustive]
pub enum OnError {
    /// It writes U+FFFD and goes on.
    Replace = 0,
    /// It ends with [`Refusal::Malformed`].
    Refuse = 1,
}

/// What a decoder does with a byte order mark, U+FEFF, at the very front of the text.
///
/// ```
/// use hamvukile::{decode, Encoding, Mark, Tables};
///
/// let text = b"\xFF\xFEh\0i\0";
/// let read = |mark| decode(Encoding::WINDOWS_1252, mark, &Tables::none(), text).unwrap();
/// assert_eq!(read(Mark::Choose), "hi");
/// assert_eq!(read(Mark::Drop), "\u{FF}\u{FE}h\0i\0");
/// ```
#[derive(Clone, Copy, Debug, PartialEq, Eq)]
#[non_exhaustive]
pub enum Mark {
    /// It drops it, where the encoding is UTF-8 or UTF-16.
    Drop = 0,
    /// It keeps it.
    Keep = 1,
    /// It drops it, and reads with the encoding that it stands for: EF BB BF is UTF-8, FE FF UTF-16BE, FF FE UTF-16LE.
    /// Without one it reads with its own encoding. A mark behind it is kept.
    Choose = 2,
}

/// A decoder: it owns its state. Text may be cut into chunks anywhere.
///
/// ```
/// use hamvukile::{Decoder, Encoding, Mark, OnError, Refusal, Tables};
///
/// let mut decoder = Decoder::new(Encoding::UTF_8, OnError::Replace, Mark::Drop);
/// let mut room = [0; 4];
/// assert_eq!(decoder.feed(b"\xE2\x82", &Tables::none(), &mut room), Ok(0));
/// assert_eq!(decoder.held(), 2);
/// // a room of one cell is too small for a chunk of one byte with two held
/// let refused = decoder.feed(b"\xAC", &Tables::none(), &mut room[..1]).unwrap_err();
/// assert_eq!(refused.refusal, Refusal::SmallRoom);
/// assert_eq!(decoder.feed(b"\xAC", &Tables::none(), &mut room), Ok(1));
/// assert_eq!(room[0], 0x20AC);
/// ```
///
/// Where errors are refused, what stands before the error is written, the error has a place and a line, and the decoder
/// has ended:
///
/// ```
/// # use hamvukile::{Decoder, Encoding, Mark, OnError, Refusal, Tables};
/// let mut decoder = Decoder::new(Encoding::UTF_8, OnError::Refuse, Mark::Drop);
/// let mut room = [0; 3];
/// assert_eq!(decoder.feed(b"x\n", &Tables::none(), &mut room), Ok(2));
/// let report = decoder.feed(b"A\xFFB", &Tables::none(), &mut room).unwrap_err();
/// assert_eq!((report.refusal, report.written), (Refusal::Malformed, 1));
/// assert_eq!((report.place, report.line), (3, 2));
/// assert_eq!(report.to_string(), "malformed text in line 2, at byte 3");
/// assert!(decoder.is_ended());
/// let after = decoder.feed(b"B", &Tables::none(), &mut room).unwrap_err();
/// assert_eq!(after.refusal, Refusal::EndedDecoder);
/// ```
#[derive(Clone, Debug, PartialEq, Eq)]
pub struct Decoder {
    state: ffi::Decoder,
}

impl Decoder {
    /// A new decoder.
    pub fn new(encoding: Encoding, on_error: OnError, mark: Mark) -> Decoder {
        let answer = calls::open(encoding.0, on_error as u8, mark as u8);
        debug_assert_eq!(answer.refusal, 0);
        Decoder {
            state: answer.decoder,
        }
    }

    /// The encoding that reads: its own, or the one that a mark chose. `None` while the choice is still to come
    /// ([`Mark::Choose`]), and once it has ended.
    ///
    /// ```
    /// use hamvukile::{Decoder, Encoding, Mark, OnError, Tables};
    ///
    /// let mut decoder = Decoder::new(Encoding::WINDOWS_1252, OnError::Replace, Mark::Choose);
    /// let mut room = [0; 4];
    /// decoder.feed(b"\xFE", &Tables::none(), &mut room).unwrap();
    /// assert_eq!((decoder.encoding(), decoder.held()), (None, 1));
    /// decoder.feed(b"\xFF", &Tables::none(), &mut room).unwrap();
    /// assert_eq!((decoder.encoding(), decoder.held()), (Some(Encoding::UTF_16BE), 0));
    /// ```
    pub fn encoding(&self) -> Option<Encoding> {
        match (self.state.ended, self.state.stage) {
            (0, 0) => Some(Encoding(self.state.encoding)),
            (0, 2) => Some(Encoding::UTF_8),
            (0, 3) => Some(Encoding::UTF_16BE),
            (0, 4) => Some(Encoding::UTF_16LE),
            _ => None,
        }
    }

    /// How many bytes it holds: the unfinished last ones of those fed.
    pub fn held(&self) -> usize {
        self.state.held.into()
    }

    /// The room that a feed of so many bytes needs.
    pub fn room_for(&self, chunk: usize) -> usize {
        chunk + self.held()
    }

    /// The bytes taken since it was made, a dropped mark and the bytes held among them.
    pub fn taken(&self) -> u32 {
        self.state.taken
    }

    /// The line feeds handed out since it was made.
    pub fn lines(&self) -> u32 {
        self.state.lines
    }

    /// Has it ended?
    pub fn is_ended(&self) -> bool {
        self.state.ended != 0
    }

    /// Takes the whole chunk, at most [`MAX_CHUNK`] bytes, and writes the scalars to the front of the room, which has at
    /// least [`Decoder::room_for`] cells. Returns how many; the cells behind them do not change. The tables are those of
    /// the encoding that it was made with, whatever a mark has chosen.
    pub fn feed(
        &mut self,
        chunk: &[u8],
        tables: &Tables<'_>,
        room: &mut [u32],
    ) -> Result<usize, Error> {
        let state = &mut self.state;
        decoded(&calls::feed_in_place(
            state,
            chunk,
            tables.first,
            tables.second,
            room,
        ))
    }

    /// The spans that [`Decoder::feed_replaced`] needs for so many bytes.
    pub fn spans_for(&self, chunk: usize) -> usize {
        2 * self.room_for(chunk)
    }

    /// As [`Decoder::feed`], and tells which sequences were replaced by U+FFFD: their places and widths are written to the
    /// front of the spans, which have at least [`Decoder::spans_for`] cells. A U+FFFD that is text is not told, and nothing
    /// is told where errors are refused.
    ///
    /// ```
    /// use hamvukile::{Decoder, Encoding, Mark, OnError, Replaced, Tables};
    ///
    /// let table = [0; 11_280];
    /// let mut decoder = Decoder::new(Encoding::SHIFT_JIS, OnError::Replace, Mark::Drop);
    /// let (mut room, mut spans) = ([0; 3], [0; 6]);
    /// let (n, replaced) = decoder
    ///     .feed_replaced(b"\x41\x82\x22", &Tables::jis0208(&table), &mut room, &mut spans)
    ///     .unwrap();
    /// assert_eq!((n, room), (3, [0x41, 0xFFFD, 0x22]));
    /// let replaced: Vec<Replaced> = replaced.collect();
    /// assert_eq!((replaced.len(), replaced[0].place, replaced[0].width), (1, 1, 1));
    /// ```
    pub fn feed_replaced<'s>(
        &mut self,
        chunk: &[u8],
        tables: &Tables<'_>,
        room: &mut [u32],
        spans: &'s mut [u32],
    ) -> Result<(usize, AllReplaced<'s>), Error> {
        let answer =
            calls::feed_replaced(self.state, chunk, tables.first, tables.second, room, spans);
        self.told(&answer, spans)
    }

    /// As [`Decoder::finish`], and tells which sequences were replaced.
    pub fn finish_replaced<'s>(
        &mut self,
        tables: &Tables<'_>,
        room: &mut [u32; MAX_HELD],
        spans: &'s mut [u32; 2 * MAX_HELD],
    ) -> Result<(usize, AllReplaced<'s>), Error> {
        let answer = calls::finish_replaced(self.state, tables.first, tables.second, room, spans);
        self.told(&answer, spans)
    }

    fn told<'s>(
        &mut self,
        told: &ffi::Replacing,
        spans: &'s [u32],
    ) -> Result<(usize, AllReplaced<'s>), Error> {
        let answer = &told.answer;
        self.state = answer.decoder;
        let written = decoded(&ffi::Reply {
            written: answer.written,
            place: answer.place,
            line: answer.line,
            refusal: answer.refusal,
        })?;
        let cells = spans[..2 * told.count].chunks_exact(2);
        Ok((written, AllReplaced { cells }))
    }

    /// The end of the text: writes what the bytes held give, and returns how many scalars. The decoder has ended then.
    /// The tables are those of a feed; they are looked at only while a mark is still to choose.
    pub fn finish(
        &mut self,
        tables: &Tables<'_>,
        room: &mut [u32; MAX_HELD],
    ) -> Result<usize, Error> {
        let state = &mut self.state;
        decoded(&calls::finish_in_place(
            state,
            tables.first,
            tables.second,
            room,
        ))
    }
}

/// A sequence that was replaced by U+FFFD.
#[derive(Clone, Copy, Debug, PartialEq, Eq)]
#[non_exhaustive]
pub struct Replaced {
    /// The bytes taken since the decoder was made before its first byte.
    pub place: u32,
    /// The bytes given up.
    pub width: u32,
}

/// The replaced sequences of a call, in order.
#[derive(Clone, Debug)]
pub struct AllReplaced<'s> {
    cells: std::slice::ChunksExact<'s, u32>,
}

impl Iterator for AllReplaced<'_> {
    type Item = Replaced;

    fn next(&mut self) -> Option<Replaced> {
        self.cells.next().map(|cells| Replaced {
            place: cells[0],
            width: cells[1],
        })
    }

    fn size_hint(&self) -> (usize, Option<usize>) {
        self.cells.size_hint()
    }
}

impl ExactSizeIterator for AllReplaced<'_> {}
impl std::iter::FusedIterator for AllReplaced<'_> {}

/// Decodes a whole text, with U+FFFD for each error.
///
/// ```
/// use hamvukile::{decode, Encoding, Mark, Tables};
///
/// assert_eq!(decode(Encoding::UTF_16LE, Mark::Drop, &Tables::none(), b"\xFF\xFEh\0i\0").unwrap(), "hi");
/// assert_eq!(decode(Encoding::UTF_8, Mark::Drop, &Tables::none(), b"\xE2\x82").unwrap(), "\u{FFFD}");
/// ```
pub fn decode(
    encoding: Encoding,
    mark: Mark,
    tables: &Tables<'_>,
    text: &[u8],
) -> Result<String, Error> {
    let mut decoder = Decoder::new(encoding, OnError::Replace, mark);
    let mut room = vec![0; text.len().min(MAX_CHUNK) + MAX_HELD];
    let mut last = [0; MAX_HELD];
    let mut out = String::with_capacity(text.len());
    let mut chunks = text.chunks(MAX_CHUNK);
    // an empty text has one empty chunk, so that the tables are looked at
    let mut chunk = chunks.next().unwrap_or(&[]);
    loop {
        let n = decoder.feed(chunk, tables, &mut room)?;
        out.extend(room[..n].iter().map(scalar));
        match chunks.next() {
            Some(next) => chunk = next,
            None => break,
        }
    }
    let n = decoder.finish(tables, &mut last)?;
    out.extend(last[..n].iter().map(scalar));
    Ok(out)
}

/// The first error of a text.
#[derive(Clone, Copy, Debug, PartialEq, Eq)]
#[non_exhaustive]
pub struct Fault {
    /// The bytes before the first byte of the sequence at fault.
    pub place: u32,
    /// The line that the sequence is in: one plus the line feeds before it.
    pub line: u32,
}

impl fmt::Display for Fault {
    fn fmt(&self, f: &mut fmt::Formatter<'_>) -> fmt::Result {
        let Fault { place, line } = self;
        write!(f, "malformed text in line {line}, at byte {place}")
    }
}

impl std::error::Error for Fault {}

/// Is a text, of at most [`MAX_CHUNK`] bytes, clean? `None` where a decoder that refuses errors and drops the mark takes
/// all of it and its end; else the first error. A U+FFFD that is text is no error.
///
/// ```
/// use hamvukile::{check, Encoding, Refusal, Tables};
///
/// let none = Tables::none();
/// assert_eq!(check(Encoding::UTF_8, &none, b"a\nb\xEF\xBF\xBD\n"), Ok(None));
/// let fault = check(Encoding::UTF_8, &none, b"a\nb\xFFc\n").unwrap().unwrap();
/// assert_eq!((fault.place, fault.line), (3, 2));
/// assert_eq!(fault.to_string(), "malformed text in line 2, at byte 3");
/// // an unfinished sequence at the end
/// assert!(check(Encoding::UTF_8, &none, b"a\xE2\x82").unwrap().is_some());
/// assert_eq!(check(Encoding::BIG5, &none, b"a").unwrap_err().refusal, Refusal::WrongTable);
/// ```
pub fn check(encoding: Encoding, tables: &Tables<'_>, text: &[u8]) -> Result<Option<Fault>, Error> {
    let answer = calls::check(encoding.0, text, tables.first, tables.second);
    match answer.refusal {
        0 => Ok((answer.clean == 0).then_some(Fault {
            place: answer.place,
            line: answer.line,
        })),
        n => Err(refused(n)),
    }
}

fn scalar(c: &u32) -> char {
    char::from_u32(*c).expect("a decoder writes scalars")
}

/// What an encoder does with a scalar that cannot be written.
#[derive(Clone, Copy, Debug, PartialEq, Eq)]
#[non_exhaustive]
pub enum OnUnwritable {
    /// It writes a reference, as `&#19968;`.
    Html = 0,
    /// It stops with [`Refusal::Malformed`].
    Refuse = 1,
}

/// An encoder: any encoding but replacement and UTF-16. It takes a text in pieces, cut anywhere, and owns the state that goes
/// from piece to piece, which only ISO-2022-JP changes. [`Encoder::finish`] ends the text and consumes the encoder.
///
/// EUC-JP and Shift_JIS write U+00A5 as 5C, U+203E as 7E and U+2212 as U+FF0D; ISO-2022-JP writes U+2212 as U+FF0D, and
/// U+FF61 to U+FF9F as the characters of its katakana table. Every other scalar that is written is read back as itself.
///
/// ```
/// use hamvukile::{Encoder, Encoding, OnUnwritable, Tables, MAX_FINISH};
///
/// // indexes with one cell each: U+3042 at pointer 283, and U+3042 for U+FF61
/// let mut jis0208 = vec![0; 11_280];
/// jis0208[283] = 0x3042;
/// let mut katakana = [0; 63];
/// katakana[0] = 0x3042;
/// let tables = Tables::iso_2022_jp_encoder(jis0208.as_slice().try_into().unwrap(), &katakana);
///
/// let mut encoder = Encoder::new(Encoding::ISO_2022_JP, OnUnwritable::Html);
/// let mut room = [0; 16];
/// let n = encoder.encode(&[0x3042], &tables, &mut room).unwrap();
/// assert_eq!(&room[..n], b"\x1B$B$\"");
/// let n = encoder.encode(&[0xFF61, 0x5C, 0xA5], &tables, &mut room).unwrap();
/// assert_eq!(&room[..n], b"$\"\x1B(B\\\x1B(J\\");
/// let mut last = [0; MAX_FINISH];
/// let n = encoder.finish(&mut last);
/// assert_eq!(&last[..n], b"\x1B(B");
/// ```
///
/// ```compile_fail
/// # use hamvukile::{Encoder, Encoding, OnUnwritable, Tables, MAX_FINISH};
/// let mut encoder = Encoder::new(Encoding::ISO_2022_JP, OnUnwritable::Html);
/// encoder.finish(&mut [0; MAX_FINISH]);
/// encoder.encode(&[0x41], &Tables::none(), &mut []);
/// ```
#[derive(Clone, Debug, PartialEq, Eq)]
#[must_use]
pub struct Encoder {
    encoding: Encoding,
    on_unwritable: OnUnwritable,
    state: u8,
}

impl Encoder {
    /// An encoder at the start of a text.
    pub fn new(encoding: Encoding, on_unwritable: OnUnwritable) -> Encoder {
        Encoder {
            encoding,
            on_unwritable,
            state: 0,
        }
    }

    /// Encodes scalars, at most [`MAX_SCALARS`]: writes the bytes to the front of the room and returns how many; the bytes
    /// behind them do not change. The room needs the bytes written and no more, at most [`MAX_BYTES_OF_A_SCALAR`] for each
    /// scalar. With [`Refusal::Malformed`] the bytes before the scalar that cannot be written are written, a return to ASCII
    /// among them; what an encoder writes after that need not read back.
    pub fn encode(
        &mut self,
        scalars: &[u32],
        tables: &Tables<'_>,
        room: &mut [u8],
    ) -> Result<usize, Error> {
        self.after(calls::encode(
            self.encoding.0,
            self.on_unwritable as u8,
            self.state,
            scalars,
            tables.first,
            tables.second,
            room,
        ))
    }

    /// Encodes scalars as [`Encoder::encode`] does, and finds them in the first table by a [`ReverseIndex`] of it. A text may be
    /// cut anywhere, and its pieces may be written with the index and without.
    ///
    /// With a true index the bytes are those of [`Encoder::encode`]. With any other cells of its length they are as many, and
    /// what is written reads back the same; where the table has a scalar more than once, the bytes may be those of another of
    /// its cells. An index of another length is refused with [`Refusal::WrongIndex`].
    ///
    /// ```
    /// use hamvukile::{Encoder, Encoding, OnUnwritable, Refusal, ReverseIndex, Tables};
    ///
    /// let mut table = vec![0; 23_940];
    /// table[16_000] = 0xAC00;
    /// let index = ReverseIndex::build(Encoding::EUC_KR, &table).unwrap();
    /// let tables = Tables::euc_kr(table.as_slice().try_into().unwrap());
    ///
    /// let mut encoder = Encoder::new(Encoding::EUC_KR, OnUnwritable::Html);
    /// let mut room = [0; 16];
    /// let n = encoder.encode_indexed(&[0xAC00, 0x41], &tables, &index, &mut room).unwrap();
    /// assert_eq!(&room[..n], b"\xD5iA");
    ///
    /// let other = ReverseIndex::from_cells(&[0; 256]);
    /// let error = encoder.encode_indexed(&[0xAC00], &tables, &other, &mut room).unwrap_err();
    /// assert_eq!(error.refusal, Refusal::WrongIndex);
    /// ```
    pub fn encode_indexed(
        &mut self,
        scalars: &[u32],
        tables: &Tables<'_>,
        index: &ReverseIndex<'_>,
        room: &mut [u8],
    ) -> Result<usize, Error> {
        self.after(calls::encode_indexed(
            self.encoding.0,
            self.on_unwritable as u8,
            self.state,
            scalars,
            tables.first,
            tables.second,
            &index.cells,
            room,
        ))
    }

    /// What a call answers, and the state that it left.
    fn after(&mut self, answer: ffi::Written) -> Result<usize, Error> {
        self.state = answer.state;
        match answer.refusal {
            0 => Ok(answer.written),
            n => Err(Error {
                written: answer.written,
                index: answer.index,
                ..refused(n)
            }),
        }
    }

    /// Is the text in ASCII, so that a finish would write nothing? In all encodings but ISO-2022-JP it always is.
    pub fn is_ascii(&self) -> bool {
        self.state == 0
    }

    /// Ends the text: writes a return to ASCII where the encoder is not in it, and returns how many bytes that are.
    pub fn finish(self, room: &mut [u8; MAX_FINISH]) -> usize {
        calls::encode_finish(self.state, room).written
    }
}

/// Encodes a whole text of at most [`MAX_SCALARS`] scalars, and finishes it: [`Encoder`] in one call. The room needs the bytes
/// written and no more, at most [`MAX_BYTES_OF_A_SCALAR`] for each scalar and [`MAX_FINISH`]. A refusal leaves the room as it
/// was, but where it has space for the text and not for the finish. [`Refusal::Malformed`] comes before a finish.
///
/// ```
/// use hamvukile::{encode, Encoding, OnUnwritable, Refusal, Tables};
///
/// let mut room = [0; 16];
/// let n = encode(Encoding::WINDOWS_1252, OnUnwritable::Html, &[0x20AC, 0x4E00], &Tables::none(), &mut room).unwrap();
/// assert_eq!(&room[..n], b"\x80&#19968;");
///
/// let report = encode(Encoding::WINDOWS_1252, OnUnwritable::Refuse, &[0x20AC, 0x4E00], &Tables::none(), &mut room).unwrap_err();
/// assert_eq!((report.refusal, report.written, report.index), (Refusal::Malformed, 1, 1));
///
/// // an index with one cell: U+3042 at pointer 283
/// let mut jis0208 = vec![0; 11_280];
/// jis0208[283] = 0x3042;
/// let tables = Tables::jis0208(jis0208.as_slice().try_into().unwrap());
/// let n = encode(Encoding::SHIFT_JIS, OnUnwritable::Html, &[0x3042, 0xFF71, 0x2212], &tables, &mut room).unwrap();
/// assert_eq!(&room[..n], b"\x82\xA0\xB1&#65293;");
/// ```
pub fn encode(
    encoding: Encoding,
    on_unwritable: OnUnwritable,
    scalars: &[u32],
    tables: &Tables<'_>,
    room: &mut [u8],
) -> Result<usize, Error> {
    let mut encoder = Encoder::new(encoding, on_unwritable);
    let written = encoder.encode(scalars, tables, room)?;
    let mut last = [0; MAX_FINISH];
    let n = encoder.finish(&mut last);
    match room.get_mut(written..written + n) {
        Some(end) => end.copy_from_slice(&last[..n]),
        None => return Err(refused(Refusal::SmallRoom.number())),
    }
    Ok(written + n)
}

/// Enters a line of a published index file, without its line feed, into a table that starts as zeros. Returns the
/// pointer of the entry, or `None` for an empty line and a comment.
///
/// ```
/// use hamvukile::{index_line, Refusal};
///
/// let mut table = [0; 128];
/// assert_eq!(index_line(b"# a comment", &mut table), Ok(None));
/// assert_eq!(index_line(b"  1\t0x00E9\t\xC3\xA9 (LATIN SMALL LETTER E WITH ACUTE)", &mut table), Ok(Some(1)));
/// assert_eq!(table[1], 0xE9);
/// assert_eq!(index_line(b"1\t0x00E9", &mut table).unwrap_err().refusal, Refusal::TakenCell);
/// assert_eq!(index_line(b"1 0x00E9", &mut table).unwrap_err().refusal, Refusal::BadLine);
/// ```
pub fn index_line(line: &[u8], table: &mut [u32]) -> Result<Option<u32>, Error> {
    entered(calls::index_line(line, table))
}

/// What an index line answers.
fn entered(answer: ffi::Line) -> Result<Option<u32>, Error> {
    match answer.refusal {
        0 => Ok((answer.entry == 1).then_some(answer.pointer)),
        n => Err(refused(n)),
    }
}

/// The cells of a reverse index of a table of so many cells: twice as many; 0 for a table of 2^32 cells or more, which has
/// no index.
#[inline]
pub fn index_size(cells: usize) -> usize {
    calls::index_size(cells)
}

/// Builds the reverse index of an encoding's first table, of [`index_size`] cells, and writes each of them. The index is
/// true as long as the table is changed by [`index_line_indexed`] alone.
///
/// ```
/// use hamvukile::{build_index, index_line_indexed, index_size, Encoding};
///
/// let mut table = vec![0; 128];
/// let mut index = vec![0; index_size(table.len())];
/// let koi8_r = Encoding::from_number(15).unwrap();
/// build_index(koi8_r, &table, &mut index).unwrap();
/// assert_eq!(index_line_indexed(b"3\t0x2502", &mut table, &mut index), Ok(Some(3)));
/// assert_eq!(index[0x2502 / 2 % 128], 4);
/// ```
pub fn build_index(encoding: Encoding, first: &[u32], index: &mut [u32]) -> Result<(), Error> {
    match calls::build_index(encoding.0, first, index) {
        0 => Ok(()),
        n => Err(refused(n)),
    }
}

/// Enters a line as [`index_line`] does, and keeps the reverse index of the table true.
pub fn index_line_indexed(
    line: &[u8],
    table: &mut [u32],
    index: &mut [u32],
) -> Result<Option<u32>, Error> {
    entered(calls::index_line_indexed(line, table, index))
}

/// A reverse index of an encoding's first table, for [`Encoder::encode_indexed`]: cells that it owns, or cells of the caller's.
///
/// ```
/// use hamvukile::{Encoding, ReverseIndex};
///
/// let table = [0; 128];
/// let koi8_r = Encoding::from_number(15).unwrap();
/// let built = ReverseIndex::build(koi8_r, &table).unwrap();
/// assert_eq!(ReverseIndex::from_cells(&[0; 256]), built);
/// ```
#[derive(Clone, Debug, PartialEq, Eq)]
pub struct ReverseIndex<'a> {
    cells: Cow<'a, [u32]>,
}

impl<'a> ReverseIndex<'a> {
    /// The true index of a table, built by [`build_index`]. Refused with [`Refusal::WrongTable`] where the table has not the
    /// length of the encoding's first table.
    pub fn build(encoding: Encoding, first: &[u32]) -> Result<ReverseIndex<'static>, Error> {
        let mut cells = vec![0; index_size(first.len())];
        build_index(encoding, first, &mut cells)?;
        Ok(ReverseIndex {
            cells: Cow::Owned(cells),
        })
    }

    /// Cells of the caller's, which [`build_index`] or [`index_line_indexed`] wrote. Any others will do, too: see
    /// [`Encoder::encode_indexed`].
    pub const fn from_cells(cells: &'a [u32]) -> ReverseIndex<'a> {
        ReverseIndex {
            cells: Cow::Borrowed(cells),
        }
    }
}

/// Why [`read_list`] refused a list.
#[derive(Clone, Copy, Debug, PartialEq, Eq)]
#[non_exhaustive]
pub struct ListError {
    /// Why.
    pub refusal: Refusal,
    /// The line at fault, counted from 1; 0 with [`Refusal::SmallRoom`].
    pub line: usize,
}

impl fmt::Display for ListError {
    fn fmt(&self, f: &mut fmt::Formatter<'_>) -> fmt::Result {
        match self.line {
            0 => self.refusal.fmt(f),
            line => write!(f, "line {line}: {}", self.refusal),
        }
    }
}

impl std::error::Error for ListError {}

/// An option of a list: its line, counted from 1, and its name and value, which are parts of the text.
#[derive(Clone, Copy, Debug, PartialEq, Eq)]
#[non_exhaustive]
pub struct ListOption<'t> {
    /// The number of its line.
    pub line: usize,
    /// The characters of its name.
    pub name: &'t [u32],
    /// The characters of its value.
    pub value: &'t [u32],
}

/// The options of a list, in order, borrowed from its text.
#[derive(Clone, Debug)]
pub struct Options<'t, 'r> {
    text: &'t [u32],
    cells: std::slice::ChunksExact<'r, u64>,
}

impl<'t> Options<'t, '_> {
    fn option(text: &'t [u32], cells: &[u64]) -> ListOption<'t> {
        let place = |cell: usize| cells[cell] as usize;
        ListOption {
            line: place(0),
            name: &text[place(1)..place(2)],
            value: &text[place(3)..place(4)],
        }
    }
}

impl<'t> Iterator for Options<'t, '_> {
    type Item = ListOption<'t>;

    fn next(&mut self) -> Option<ListOption<'t>> {
        let cells = self.cells.next()?;
        Some(Options::option(self.text, cells))
    }

    fn size_hint(&self) -> (usize, Option<usize>) {
        self.cells.size_hint()
    }
}

impl DoubleEndedIterator for Options<'_, '_> {
    fn next_back(&mut self) -> Option<Self::Item> {
        let cells = self.cells.next_back()?;
        Some(Options::option(self.text, cells))
    }
}

impl ExactSizeIterator for Options<'_, '_> {}
impl std::iter::FusedIterator for Options<'_, '_> {}

/// Reads an options list of decoded characters: one option a line, name, tab, value. A line feed ends a line, and a
/// carriage return just before it is dropped; the last line may lack its line feed; an empty line is passed over, but
/// counted. The known names are characters, too, each closed by a line feed. The list is refused by its first line that has
/// not one tab, or whose name is not known, is empty, or is that of an earlier line. The room needs [`OPTION_CELLS`] cells
/// for each option, and a refused list leaves it as it was.
///
/// ```
/// use hamvukile::{read_list, Decoder, Encoding, Mark, OnError, Refusal, Tables, MAX_HELD, OPTION_CELLS};
///
/// // a list from a supplier, in windows-1252
/// let bytes = b"colour\tgr\xFCn\r\n\r\nwidth\t80";
/// let mut text = [0; 64];
/// let mut decoder = Decoder::new(Encoding::WINDOWS_1252, OnError::Replace, Mark::Drop);
/// let n = decoder.feed(bytes, &Tables::none(), &mut text).unwrap();
/// let mut last = [0; MAX_HELD];
/// assert_eq!(decoder.finish(&Tables::none(), &mut last), Ok(0));
///
/// let characters = |s: &str| s.chars().map(u32::from).collect::<Vec<_>>();
/// let names = characters("width\nheight\ncolour\n");
/// let mut room = [0; 10 * OPTION_CELLS];
/// let options: Vec<_> = read_list(&text[..n], &names, &mut room).unwrap().collect();
/// assert_eq!(options.len(), 2);
/// assert_eq!(options[0].name, characters("colour"));
/// assert_eq!(options[0].value, characters("grün"));
/// assert_eq!((options[1].line, options[1].value), (3, &characters("80")[..]));
///
/// let fault = read_list(&characters("width\t80\nwidth\t90\n"), &names, &mut room).unwrap_err();
/// assert_eq!((fault.refusal, fault.line), (Refusal::RepeatedOption, 2));
/// assert_eq!(fault.to_string(), "line 2: a name that an earlier line has");
/// ```
pub fn read_list<'t, 'r>(
    text: &'t [u32],
    names: &[u32],
    room: &'r mut [u64],
) -> Result<Options<'t, 'r>, ListError> {
    let answer = calls::read_list(text, names, room);
    match answer.refusal {
        0 => Ok(Options {
            text,
            cells: room[..answer.options * OPTION_CELLS].chunks_exact(OPTION_CELLS),
        }),
        n => Err(ListError {
            refusal: Refusal::of(n),
            line: answer.line,
        }),
    }
}

#[cfg(test)]
mod tests {
    use super::*;

    fn characters(text: &str) -> Vec<u32> {
        text.chars().map(u32::from).collect()
    }

    #[test]
    fn every_name_is_a_label_of_its_encoding() {
        for number in 0..40 {
            let encoding = Encoding::from_number(number).unwrap();
            assert_eq!(
                Encoding::from_label(encoding.name().as_bytes()),
                Some(encoding)
            );
        }
    }

    #[test]
    fn the_header_has_this_version() {
        let header = include_str!("../../../include/hamvukile.h");
        let line = format!(
            "#define HAMVUKILE_VERSION \"{}\"",
            env!("CARGO_PKG_VERSION")
        );
        assert!(header.contains(&line));
    }

    #[test]
    fn each_refusal_has_its_number() {
        for number in (1..15).chain(16..19) {
            assert_eq!(Refusal::of(number).number(), number);
        }
    }

    #[test]
    fn a_text_cut_anywhere_is_the_same() {
        let text = "a\u{e9}\u{20ac}\u{1f4a9}".as_bytes();
        for cut in 0..=text.len() {
            let mut decoder = Decoder::new(Encoding::UTF_8, OnError::Refuse, Mark::Keep);
            let mut room = [0; 16];
            let a = decoder
                .feed(&text[..cut], &Tables::none(), &mut room)
                .unwrap();
            let b = decoder
                .feed(&text[cut..], &Tables::none(), &mut room[a..])
                .unwrap();
            assert_eq!(room[..a + b], [0x61, 0xe9, 0x20ac, 0x1f4a9]);
            assert_eq!(decoder.finish(&Tables::none(), &mut [0; MAX_HELD]), Ok(0));
            assert!(decoder.is_ended());
        }
    }

    #[test]
    fn tables_of_another_encoding_are_refused() {
        let index = [0; 128];
        let mut decoder = Decoder::new(Encoding::UTF_8, OnError::Replace, Mark::Drop);
        let error = decoder
            .feed(b"", &Tables::single_byte(&index), &mut [])
            .unwrap_err();
        assert_eq!(error.refusal, Refusal::WrongTable);
        assert_eq!(
            decoder,
            Decoder::new(Encoding::UTF_8, OnError::Replace, Mark::Drop)
        );
    }

    #[test]
    fn a_mark_chooses_however_it_is_cut() {
        let text = b"\xEF\xBB\xBF\xEF\xBB\xBF\xC3\xA9";
        for cut in 0..=text.len() {
            let mut decoder = Decoder::new(Encoding::WINDOWS_1252, OnError::Refuse, Mark::Choose);
            let mut room = [0; 16];
            let a = decoder
                .feed(&text[..cut], &Tables::none(), &mut room)
                .unwrap();
            let b = decoder
                .feed(&text[cut..], &Tables::none(), &mut room[a..])
                .unwrap();
            assert_eq!(room[..a + b], [0xFEFF, 0xE9]);
            assert_eq!(decoder.encoding(), Some(Encoding::UTF_8));
            assert_eq!(decoder.finish(&Tables::none(), &mut [0; MAX_HELD]), Ok(0));
            assert_eq!(decoder.encoding(), None);
        }
    }

    #[test]
    fn tables_are_looked_at_in_a_finish_before_the_choice() {
        let kept = Decoder::new(Encoding::BIG5, OnError::Replace, Mark::Keep);
        let choosing = Decoder::new(Encoding::BIG5, OnError::Replace, Mark::Choose);
        let mut room = [0; MAX_HELD];
        assert_eq!(kept.clone().finish(&Tables::none(), &mut room), Ok(0));
        let mut decoder = choosing.clone();
        let error = decoder.finish(&Tables::none(), &mut room).unwrap_err();
        assert_eq!(error.refusal, Refusal::WrongTable);
        assert_eq!(decoder, choosing);
        let index = vec![0; 19_782];
        let tables = Tables::big5(index.as_slice().try_into().unwrap());
        assert_eq!(decoder.finish(&tables, &mut room), Ok(0));
    }

    #[test]
    fn a_decoder_is_twenty_bytes() {
        assert_eq!(std::mem::size_of::<Decoder>(), 20);
    }

    #[test]
    fn an_error_has_one_place_however_it_is_cut() {
        let text = b"\xEF\xBB\xBFa\nb\n\xE2\x82x\n";
        for cut in 0..=text.len() {
            let mut decoder = Decoder::new(Encoding::UTF_8, OnError::Refuse, Mark::Drop);
            let mut room = [0; 16];
            let [one, other] = [&text[..cut], &text[cut..]];
            let report = decoder
                .feed(one, &Tables::none(), &mut room)
                .and_then(|_| decoder.feed(other, &Tables::none(), &mut room))
                .unwrap_err();
            assert_eq!(
                (report.refusal, report.place, report.line),
                (Refusal::Malformed, 7, 3)
            );
            assert_eq!(decoder.lines(), 2);
        }
    }

    #[test]
    fn a_writing_cut_anywhere_is_the_same() {
        let mut jis0208 = vec![0; 11_280];
        jis0208[0] = 0x3042;
        let katakana = [0x3042; 63];
        let tables = Tables::iso_2022_jp_encoder(jis0208.as_slice().try_into().unwrap(), &katakana);
        let text = [0x41, 0x3042, 0xFF71, 0xA5, 0x42, 0x7E, 0x4E00, 0x3042];
        let whole = b"A\x1B$B!!!!\x1B(J\\B\x1B(B~&#19968;\x1B$B!!\x1B(B";
        let mut room = [0; 64];
        let n = encode(
            Encoding::ISO_2022_JP,
            OnUnwritable::Html,
            &text,
            &tables,
            &mut room,
        );
        assert_eq!(&room[..n.unwrap()], whole);
        for cut in 0..=text.len() {
            let mut encoder = Encoder::new(Encoding::ISO_2022_JP, OnUnwritable::Html);
            let a = encoder.encode(&text[..cut], &tables, &mut room).unwrap();
            let b = encoder
                .encode(&text[cut..], &tables, &mut room[a..])
                .unwrap();
            let mut last = [0; MAX_FINISH];
            let c = encoder.finish(&mut last);
            assert_eq!([&room[..a + b], &last[..c]].concat(), whole);
        }
    }

    #[test]
    fn pieces_with_and_without_an_index_are_one_text() {
        let mut jis0208 = vec![0; 11_280];
        jis0208[283] = 0x3042;
        jis0208[285] = 0x3044;
        let tables = Tables::iso_2022_jp_encoder(jis0208.as_slice().try_into().unwrap(), &[0; 63]);
        let index = ReverseIndex::build(Encoding::ISO_2022_JP, &jis0208).unwrap();
        let text = [0x3042, 0x41, 0x3044, 0x3042, 0x1F4A9, 0x3044];
        let mut whole = [0; 64];
        let n = encode(
            Encoding::ISO_2022_JP,
            OnUnwritable::Html,
            &text,
            &tables,
            &mut whole,
        )
        .unwrap();
        for cut in 0..=text.len() {
            let mut encoder = Encoder::new(Encoding::ISO_2022_JP, OnUnwritable::Html);
            let mut room = [0; 64];
            let (one, other) = text.split_at(cut);
            let mut at = encoder
                .encode_indexed(one, &tables, &index, &mut room)
                .unwrap();
            at += encoder.encode(other, &tables, &mut room[at..]).unwrap();
            let mut last = [0; MAX_FINISH];
            let end = encoder.finish(&mut last);
            room[at..at + end].copy_from_slice(&last[..end]);
            assert_eq!(room[..at + end], whole[..n]);
        }
    }

    #[test]
    fn an_index_of_another_table_is_refused() {
        let index = ReverseIndex::build(Encoding::EUC_KR, &vec![0; 23_940]).unwrap();
        let mut encoder = Encoder::new(Encoding::WINDOWS_1252, OnUnwritable::Refuse);
        let error = encoder
            .encode_indexed(&[0x41], &Tables::none(), &index, &mut [0; 1])
            .unwrap_err();
        assert_eq!(error.refusal, Refusal::WrongIndex);
        assert_eq!(
            ReverseIndex::build(Encoding::EUC_KR, &[0; 128])
                .unwrap_err()
                .refusal,
            Refusal::WrongTable
        );
    }

    #[test]
    fn a_refused_writing_keeps_its_state() {
        let jis0208 = vec![0; 11_280];
        let katakana = [0; 63];
        let tables = Tables::iso_2022_jp_encoder(jis0208.as_slice().try_into().unwrap(), &katakana);
        let mut encoder = Encoder::new(Encoding::ISO_2022_JP, OnUnwritable::Refuse);
        let mut room = [0; 8];
        assert_eq!(encoder.encode(&[0xA5], &tables, &mut room), Ok(4));
        let kept = encoder.clone();
        assert!(!kept.is_ascii());
        let small = encoder.encode(&[0x41], &tables, &mut []).unwrap_err();
        assert_eq!((small.refusal, &encoder), (Refusal::SmallRoom, &kept));
        let tables_of_reading = Tables::of(&jis0208, &[]);
        let wrong = encoder
            .encode(&[], &tables_of_reading, &mut [])
            .unwrap_err();
        assert_eq!((wrong.refusal, &encoder), (Refusal::WrongTable, &kept));
        let report = encoder
            .encode(&[0x41, 0x1B], &tables, &mut room)
            .unwrap_err();
        assert_eq!(
            (report.refusal, report.written, report.index),
            (Refusal::Malformed, 1, 1)
        );
        assert_eq!(encoder.finish(&mut [0; MAX_FINISH]), 3);
    }

    #[test]
    fn a_whole_writing_needs_room_for_its_finish() {
        let jis0208 = vec![0; 11_280];
        let tables = Tables::of(&jis0208, &[0; 63]);
        let write = |room: &mut [u8]| {
            encode(
                Encoding::ISO_2022_JP,
                OnUnwritable::Html,
                &[0xA5],
                &tables,
                room,
            )
        };
        assert_eq!(write(&mut [0; 7]), Ok(7));
        assert_eq!(write(&mut [0; 6]).unwrap_err().refusal, Refusal::SmallRoom);
    }

    #[test]
    fn options_are_parts_of_the_text() {
        let text = characters("b\t\n\na\tx y\r");
        let mut room = [7; 11];
        let options = read_list(&text, &characters("a\nb\n"), &mut room).unwrap();
        assert_eq!(options.len(), 2);
        let found: Vec<_> = options.map(|o| (o.line, o.name, o.value)).collect();
        let none: &[u32] = &[];
        assert_eq!(
            found,
            [(1, &text[0..1], none), (3, &text[4..5], &text[6..])]
        );
        assert_eq!(found[1].1.as_ptr(), text[4..].as_ptr());
        assert_eq!(room[10], 7);
    }

    #[test]
    fn options_may_be_taken_from_both_ends() {
        let text = characters("a\t1\nb\t2\nc\t3\n");
        let mut room = [0; 15];
        let mut options = read_list(&text, &characters("a\nb\nc\n"), &mut room).unwrap();
        assert_eq!(options.next_back().map(|o| o.line), Some(3));
        assert_eq!(options.next().map(|o| o.line), Some(1));
        assert_eq!(options.len(), 1);
    }

    #[test]
    fn a_refused_list_leaves_the_room() {
        let names = characters("a\nb\n");
        for (text, refusal, line) in [
            ("a\t1\nb", Refusal::BadOptionLine, 2),
            ("a\t1\n\nc\t2", Refusal::UnknownOption, 3),
            ("a\t1\na\t2", Refusal::RepeatedOption, 2),
            ("a\t1\nb\t2", Refusal::SmallRoom, 0),
        ] {
            let mut room = [7; 9];
            let error = read_list(&characters(text), &names, &mut room).unwrap_err();
            assert_eq!(error, ListError { refusal, line });
            assert_eq!(room, [7; 9]);
        }
    }

    #[test]
    fn the_library_has_this_version() {
        let header = include_str!("../../../include/hamvukile.h");
        let line = format!("#define HAMVUKILE_VERSION_NUMBER {}", version());
        assert!(header.contains(&line));
    }
}
