//! What is measured: the library, iconv and encoding_rs behind one form.

use crate::data::Encoding;
use crate::iconv::Iconv;
use crate::simple::Simple;
use support::{calls, ffi, Tables};

/// A decoder that is fed chunks. The room has a cell for each byte of the chunk and four more.
pub trait Decoder {
    /// A scalar, or a code unit of UTF-16.
    type Unit: Copy + Default;
    fn feed(&mut self, chunk: &[u8], room: &mut [Self::Unit]) -> usize;
    fn finish(&mut self, room: &mut [Self::Unit]) -> usize;
}

/// The library through its C boundary.
pub struct Ours<'a> {
    decoder: ffi::Decoder,
    tables: Tables<'a>,
}

impl<'a> Ours<'a> {
    pub fn open(encoding: Encoding, tables: Tables<'a>) -> Ours<'a> {
        let keep_mark = 1;
        let answer = calls::open(encoding.number(), 0, keep_mark);
        assert_eq!(answer.refusal, 0);
        Ours {
            decoder: answer.decoder,
            tables,
        }
    }
}

impl Decoder for Ours<'_> {
    type Unit = u32;

    #[inline]
    fn feed(&mut self, chunk: &[u8], room: &mut [u32]) -> usize {
        let answer = calls::feed(
            self.decoder,
            chunk,
            self.tables.first,
            self.tables.second,
            room,
        );
        assert_eq!(answer.refusal, 0);
        self.decoder = answer.decoder;
        answer.written
    }

    fn finish(&mut self, room: &mut [u32]) -> usize {
        let answer = calls::finish(self.decoder, self.tables.first, self.tables.second, room);
        assert_eq!(answer.refusal, 0);
        self.decoder = answer.decoder;
        answer.written
    }
}

/// The library, with a decoder that is lent to each call.
pub struct Lent<'a>(Ours<'a>);

impl<'a> Lent<'a> {
    pub fn open(encoding: Encoding, tables: Tables<'a>) -> Lent<'a> {
        Lent(Ours::open(encoding, tables))
    }
}

impl Decoder for Lent<'_> {
    type Unit = u32;

    fn feed(&mut self, chunk: &[u8], room: &mut [u32]) -> usize {
        let Ours { decoder, tables } = &mut self.0;
        let reply = calls::feed_in_place(decoder, chunk, tables.first, tables.second, room);
        assert_eq!(reply.refusal, 0);
        reply.written
    }

    fn finish(&mut self, room: &mut [u32]) -> usize {
        let Ours { decoder, tables } = &mut self.0;
        let reply = calls::finish_in_place(decoder, tables.first, tables.second, room);
        assert_eq!(reply.refusal, 0);
        reply.written
    }
}

impl Decoder for Simple<'_> {
    type Unit = u32;

    fn feed(&mut self, chunk: &[u8], room: &mut [u32]) -> usize {
        Simple::feed(self, chunk, room)
    }

    fn finish(&mut self, room: &mut [u32]) -> usize {
        Simple::finish(self, room)
    }
}

/// iconv with a host around it: the rest of a chunk is kept for the next one; where iconv stops at an error, the host
/// writes U+FFFD and skips one unit.
pub struct Host {
    iconv: Iconv,
    unit: usize,
    rest: [u8; 8],
    rest_length: usize,
}

impl Host {
    pub fn open(encoding: Encoding) -> Result<Host, String> {
        Ok(Host {
            iconv: Iconv::open(encoding.iconv(), "UTF-32LE")?,
            unit: encoding.unit(),
            rest: [0; 8],
            rest_length: 0,
        })
    }

    /// Converts until the end or an unfinished sequence. The bytes read and the scalars written.
    fn convert(&mut self, bytes: &[u8], room: &mut [u32]) -> (usize, usize) {
        let mut read = 0;
        let mut written = 0;
        loop {
            let (bytes_read, scalars, error) =
                self.iconv.decode(&bytes[read..], &mut room[written..]);
            read += bytes_read;
            written += scalars;
            if !error || read + self.unit > bytes.len() {
                return (read, written);
            }
            room[written] = 0xFFFD;
            written += 1;
            read += self.unit;
        }
    }

    fn keep(&mut self, rest: &[u8]) {
        self.rest[..rest.len()].copy_from_slice(rest);
        self.rest_length = rest.len();
    }
}

impl Decoder for Host {
    type Unit = u32;

    fn feed(&mut self, chunk: &[u8], room: &mut [u32]) -> usize {
        let mut start = 0;
        let mut before = 0;
        let held = self.rest_length;
        if held > 0 {
            let taken = chunk.len().min(8);
            let mut joined = [0; 16];
            joined[..held].copy_from_slice(&self.rest[..held]);
            joined[held..held + taken].copy_from_slice(&chunk[..taken]);
            let (read, written) = self.convert(&joined[..held + taken], room);
            if taken == chunk.len() {
                self.keep(&joined[read..held + taken]);
                return written;
            }
            start = read - held;
            before = written;
        }
        let (read, written) = self.convert(&chunk[start..], &mut room[before..]);
        self.keep(&chunk[start + read..]);
        before + written
    }

    fn finish(&mut self, room: &mut [u32]) -> usize {
        let scalars = self.iconv.flush(room);
        if self.rest_length == 0 {
            return scalars;
        }
        self.rest_length = 0;
        room[scalars] = 0xFFFD;
        scalars + 1
    }
}

#[cfg(encoding_rs)]
pub mod utf_16 {
    use super::{Decoder, Encoding};

    pub const VERSION: &str = env!("ENCODING_RS_VERSION");

    /// encoding_rs, which writes UTF-16.
    pub struct Utf16(encoding_rs::Decoder);

    impl Utf16 {
        pub fn open(encoding: Encoding) -> Utf16 {
            let found = encoding_rs::Encoding::for_label(encoding.name().as_bytes());
            Utf16(found.expect("a label").new_decoder_without_bom_handling())
        }
    }

    impl Decoder for Utf16 {
        type Unit = u16;

        fn feed(&mut self, chunk: &[u8], room: &mut [u16]) -> usize {
            let (result, read, written, _) = self.0.decode_to_utf16(chunk, room, false);
            assert!(result == encoding_rs::CoderResult::InputEmpty && read == chunk.len());
            written
        }

        fn finish(&mut self, room: &mut [u16]) -> usize {
            self.0.decode_to_utf16(&[], room, true).2
        }
    }
}
