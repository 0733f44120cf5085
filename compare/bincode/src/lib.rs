//! What mbrman uses of bincode 2, over bincode 1, whose plain functions write the same form: little-endian
//! numbers of fixed width, a tuple's or struct's fields one after the other, and no length before them.

pub mod config {
    /// The one configuration that mbrman names.
    pub struct Legacy;

    pub fn legacy() -> Legacy {
        Legacy
    }
}

pub mod error {
    use std::fmt;

    #[derive(Debug)]
    pub struct DecodeError(pub old::Error);

    #[derive(Debug)]
    pub struct EncodeError(pub old::Error);

    impl fmt::Display for DecodeError {
        fn fmt(&self, f: &mut fmt::Formatter) -> fmt::Result {
            self.0.fmt(f)
        }
    }

    impl fmt::Display for EncodeError {
        fn fmt(&self, f: &mut fmt::Formatter) -> fmt::Result {
            self.0.fmt(f)
        }
    }

    impl std::error::Error for DecodeError {}
    impl std::error::Error for EncodeError {}
}

pub mod serde {
    use crate::config::Legacy;
    use crate::error::{DecodeError, EncodeError};
    use base::{de::DeserializeOwned, Serialize};
    use std::io::{Read, Write};

    #[cfg_attr(feature = "separate", inline(never))]
    pub fn decode_from_std_read<T: DeserializeOwned, R: Read>(
        reader: &mut R,
        _: Legacy,
    ) -> Result<T, DecodeError> {
        old::deserialize_from(reader).map_err(DecodeError)
    }

    /// Answers how many bytes were written.
    #[cfg_attr(feature = "separate", inline(never))]
    pub fn encode_into_std_write<T: Serialize, W: Write>(
        value: T,
        writer: &mut W,
        _: Legacy,
    ) -> Result<usize, EncodeError> {
        let mut counted = Counted { writer, written: 0 };
        old::serialize_into(&mut counted, &value).map_err(EncodeError)?;
        Ok(counted.written)
    }

    struct Counted<'a, W> {
        writer: &'a mut W,
        written: usize,
    }

    impl<W: Write> Write for Counted<'_, W> {
        #[cfg_attr(feature = "separate", inline(never))]
        fn write(&mut self, bytes: &[u8]) -> std::io::Result<usize> {
            let n = self.writer.write(bytes)?;
            self.written += n;
            Ok(n)
        }

        fn flush(&mut self) -> std::io::Result<()> {
            self.writer.flush()
        }
    }
}

#[cfg(test)]
mod tests {
    use super::config::legacy;
    use super::serde::{decode_from_std_read, encode_into_std_write};
    use base::{Deserialize, Serialize};
    use serde_big_array::BigArray;
    use std::io::Cursor;

    #[derive(Serialize, Deserialize, Debug, PartialEq, Clone)]
    #[serde(crate = "base")]
    struct Inner {
        byte: u8,
        two: u16,
        four: u32,
    }

    #[derive(Serialize, Deserialize, Debug, PartialEq, Clone)]
    #[serde(crate = "base")]
    struct Outer {
        #[serde(with = "BigArray")]
        code: [u8; 40],
        mark: [u8; 2],
        first: Inner,
        second: Inner,
    }

    fn outer() -> Outer {
        let mut code = [0; 40];
        code[0] = 9;
        code[39] = 8;
        let first = Inner { byte: 1, two: 0x0302, four: 0x07060504 };
        let second = Inner { byte: 255, two: 65535, four: 1 };
        Outer { code, mark: [0x55, 0xaa], first, second }
    }

    fn bytes() -> Vec<u8> {
        let mut bytes = vec![9];
        bytes.extend([0; 38]);
        bytes.extend([8, 0x55, 0xaa, 1, 2, 3, 4, 5, 6, 7, 255, 255, 255, 1, 0, 0, 0]);
        bytes
    }

    #[test]
    fn fields_stand_one_after_the_other_little_endian_and_without_lengths() {
        let mut out = Vec::new();
        assert_eq!(encode_into_std_write(&outer(), &mut out, legacy()).unwrap(), 56);
        assert_eq!(out, bytes());
        out.clear();
        assert_eq!(encode_into_std_write([0x55u8, 0xaa], &mut out, legacy()).unwrap(), 2);
        assert_eq!(out, [0x55, 0xaa]);
    }

    #[test]
    fn reading_takes_just_the_value_and_leaves_the_reader_after_it() {
        let mut long = bytes();
        long.push(77);
        let mut reader = Cursor::new(long);
        let read: Outer = decode_from_std_read(&mut reader, legacy()).unwrap();
        assert_eq!(read, outer());
        assert_eq!(reader.position(), 56);
    }

    #[test]
    fn the_end_of_the_input_is_an_error_at_every_length() {
        for n in 0..56 {
            let mut reader = Cursor::new(bytes()[..n].to_vec());
            assert!(decode_from_std_read::<Outer, _>(&mut reader, legacy()).is_err());
        }
    }

    #[test]
    fn a_full_writer_is_an_error_at_every_length() {
        for n in 0..56 {
            let mut room = vec![0; n];
            assert!(encode_into_std_write(&outer(), &mut room.as_mut_slice(), legacy()).is_err());
        }
    }
}
