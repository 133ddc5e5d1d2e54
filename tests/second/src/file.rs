//! The transfer file, of pages of 256 bytes, and its writing.

use crate::answer::{refuse_if, Answer, Refusal};
use crate::shape::SMALL;

/// "A file has 0 to 64 pages of 256 bytes."
pub const FILE_PAGES_MOST: usize = 64;

/// "The file starts with the two bytes F1 B0 (hexadecimal)."
pub const START: [u8; 2] = [0xF1, 0xB0];

/// "each page, in order, is a field of tag 01 and 256 bytes".
pub const PAGE_TAG: u8 = 0x01;
/// "Tag 02 holds the device number in 4 bytes".
pub const DEVICE_TAG: u8 = 0x02;
/// "Tag 7F with length 0 ends the file."
pub const END_TAG: u8 = 0x7F;

/// "So with n pages it has 12 + 259 n bytes".
pub fn file_bytes(pages: usize) -> usize {
    12 + 259 * pages
}

/// "a one-byte tag, a two-byte length with the high byte first, and the contents".
pub fn field(tag: u8, contents: &[u8]) -> Vec<u8> {
    let length = u16::try_from(contents.len()).expect("a length of two bytes");
    [&head(tag, length)[..], contents].concat()
}

/// What a field has before its contents.
pub fn head(tag: u8, length: u16) -> [u8; 3] {
    let [high, low] = length.to_be_bytes();
    [tag, high, low]
}

/// The start, and the fields: the device number, then each page, "in order", then the end.
pub fn parts_of(device: u32, pages: &[u8]) -> Vec<Vec<u8>> {
    let first = [START.to_vec(), field(DEVICE_TAG, &device.to_be_bytes())];
    let pages = pages.chunks(SMALL.bytes).map(|page| field(PAGE_TAG, page));
    first.into_iter().chain(pages).chain([field(END_TAG, &[])]).collect()
}

/// "The writer returns the number of bytes written; output after them is unchanged."
pub fn write_file(device: u32, pages: &[u8], output: &mut [u8]) -> Answer {
    let rest = pages.len() % SMALL.bytes;
    refuse_if(rest > 0 || pages.len() > FILE_PAGES_MOST * SMALL.bytes, Refusal::PAGES_LENGTH)?;
    let file = parts_of(device, pages).concat();
    refuse_if(output.len() < file.len(), Refusal::OUTPUT_LENGTH)?;
    output[..file.len()].copy_from_slice(&file);
    Ok(file.len() as u64)
}

#[cfg(test)]
mod tests {
    use super::*;

    /// The answer, with an output of this length, and the output afterwards.
    fn written(device: u32, pages: &[u8], length: usize) -> (Answer, Vec<u8>) {
        let mut output = vec![0xA5; length];
        let answer = write_file(device, pages, &mut output);
        (answer, output)
    }

    #[test]
    fn no_page() {
        let file = [0xF1, 0xB0, 0x02, 0x00, 0x04, 0x01, 0x02, 0x03, 0x04, 0x7F, 0x00, 0x00];
        assert_eq!(written(0x0102_0304, &[], 12), (Ok(12), file.to_vec()));
    }

    #[test]
    fn one_page() {
        let page: Vec<u8> = (0..=255).collect();
        let (answer, output) = written(0xFEDC_BA98, &page, 271);
        assert_eq!(answer, Ok(271));
        assert_eq!(output[..12], [0xF1, 0xB0, 0x02, 0x00, 0x04, 0xFE, 0xDC, 0xBA, 0x98, 0x01, 0x01, 0x00]);
        assert_eq!(output[12..268], page);
        assert_eq!(output[268..], [0x7F, 0x00, 0x00]);
    }

    #[test]
    fn pages_stay_in_order() {
        let pages = [[7; 256], [8; 256], [9; 256]].concat();
        let (answer, output) = written(0, &pages, 789);
        assert_eq!(answer, Ok(789));
        for (start, byte) in [(9, 7), (268, 8), (527, 9)] {
            assert_eq!(output[start..start + 3], [0x01, 0x01, 0x00]);
            assert_eq!(output[start + 3..start + 259], [byte; 256]);
        }
        assert_eq!(output[786..], [0x7F, 0x00, 0x00]);
    }

    /// "the van's file [...] stay with 256 bytes": 512 bytes are two pages, each in a field of its own.
    #[test]
    fn bytes_512_are_two_pages() {
        let page: Vec<u8> = (0..512).map(|place| (place * 7 + place / 256) as u8).collect();
        let (answer, output) = written(1, &page, 530);
        assert_eq!(answer, Ok(530));
        for (start, half) in [(9, &page[..256]), (268, &page[256..])] {
            assert_eq!(output[start..start + 259], [&[0x01, 0x01, 0x00], half].concat());
        }
    }

    #[test]
    fn every_number_of_pages() {
        for pages in 0..=64 {
            let (answer, output) = written(1, &vec![0; 256 * pages], file_bytes(pages));
            assert_eq!(answer, Ok(output.len() as u64));
        }
        assert_eq!(file_bytes(64), 16_588);
    }

    #[test]
    fn output_after_the_file_is_unchanged() {
        let (answer, output) = written(1, &[], 15);
        assert_eq!(answer, Ok(12));
        assert_eq!(output[9..], [0x7F, 0x00, 0x00, 0xA5, 0xA5, 0xA5]);
    }

    #[test]
    fn no_multiple_of_256_or_more_than_64_pages() {
        for length in [1, 255, 257, 16_383, 16_385, 16_640, 16_896, 32_768, 65_536] {
            for output in [0, 11, 100_000] {
                let refused = (Err(Refusal::PAGES_LENGTH), vec![0xA5; output]);
                assert_eq!(written(1, &vec![0; length], output), refused, "{length}");
            }
        }
        assert_eq!(Refusal::PAGES_LENGTH, Refusal { number: 13, index: 0 });
    }

    #[test]
    fn an_output_too_short() {
        for (pages, output) in [(0, 0), (0, 11), (1, 0), (1, 12), (1, 270), (64, 16_587)] {
            let refused = (Err(Refusal::OUTPUT_LENGTH), vec![0xA5; output]);
            assert_eq!(written(1, &vec![0; 256 * pages], output), refused, "{pages}");
        }
    }
}
