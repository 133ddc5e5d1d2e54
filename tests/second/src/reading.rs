//! The reading of a transfer file.

use crate::answer::{file_result, refuse_if, Answer, Refusal};
use crate::file::{DEVICE_TAG, END_TAG, FILE_PAGES_MOST, PAGE_TAG, START};
use crate::shape::SMALL;
use std::ops::{Range, RangeInclusive};

/// "Tags 40 to 6F (hexadecimal) of any length are passed over."
pub const PASSED_OVER_TAGS: RangeInclusive<u8> = 0x40..=0x6F;

/// The bytes of a field before its contents: "a one-byte tag, a two-byte length".
pub const HEAD_BYTES: usize = 3;

/// "A field is a device number, a page, the end, or one to be passed over".
#[derive(Clone, Copy, Debug, PartialEq, Eq, Hash)]
pub enum Kind {
    Device,
    Page,
    End,
    PassedOver,
}

impl Kind {
    pub const ALL: [Kind; 4] = [Kind::Device, Kind::Page, Kind::End, Kind::PassedOver];

    /// None for "another tag".
    pub fn of(tag: u8) -> Option<Kind> {
        match tag {
            DEVICE_TAG => Some(Kind::Device),
            PAGE_TAG => Some(Kind::Page),
            END_TAG => Some(Kind::End),
            _ => PASSED_OVER_TAGS.contains(&tag).then_some(Kind::PassedOver),
        }
    }

    /// The only length that is not "a wrong length": "the device number in 4 bytes", "a field of tag 01 and 256 bytes", "Tag
    /// 7F with length 0"; none for fields "of any length".
    pub fn length(self) -> Option<usize> {
        match self {
            Kind::Device => Some(4),
            Kind::Page => Some(SMALL.bytes),
            Kind::End => Some(0),
            Kind::PassedOver => None,
        }
    }

    pub fn name(self) -> &'static str {
        match self {
            Kind::Device => "a device number",
            Kind::Page => "a page",
            Kind::End => "the end",
            Kind::PassedOver => "a field passed over",
        }
    }
}

/// How far the sequence has come.
#[derive(Clone, Copy, Debug, PartialEq, Eq, Hash)]
pub enum Stage {
    /// To the start alone.
    Start,
    /// To the device number and so many pages.
    Pages(usize),
    /// To the end field, after so many pages.
    End(usize),
}

impl Stage {
    /// The stage after a field of this kind, if it has a place: "The device number is the first field not passed over" and
    /// "comes once"; "then come the pages, at most 64, then the end field"; and fields to be passed over "may stand anywhere
    /// between the start and the end field".
    pub fn after(self, kind: Kind) -> Option<Stage> {
        match (self, kind) {
            (Stage::End(_), _) => None,
            (_, Kind::PassedOver) => Some(self),
            (Stage::Start, Kind::Device) => Some(Stage::Pages(0)),
            (Stage::Pages(count), Kind::Page) if count < FILE_PAGES_MOST => Some(Stage::Pages(count + 1)),
            (Stage::Pages(count), Kind::End) => Some(Stage::End(count)),
            _ => None,
        }
    }

    /// The pages so far.
    pub fn pages(self) -> usize {
        match self {
            Stage::Start => 0,
            Stage::Pages(count) | Stage::End(count) => count,
        }
    }
}

/// Why a file is refused, whatever the output.
#[derive(Clone, Copy, Debug, PartialEq, Eq, Hash)]
pub enum Fault {
    /// "a wrong start".
    Start,
    /// It ends "before tag 7F", "where a field should begin".
    NoField,
    /// It "ends inside a field": a byte of the length is missing.
    NoLength,
    /// It "ends inside a field": a byte of the contents is missing.
    NoContents,
    /// "another tag".
    Tag,
    /// "a field out of sequence or a 65th page".
    Sequence,
    /// "a wrong length".
    Length,
    /// "bytes after the end field".
    Tail,
}

impl Fault {
    /// "It refuses 14 for a wrong start or a file that ends inside a field or before tag 7F, 15 for another tag, a wrong
    /// length, a field out of sequence or a 65th page, 16 for bytes after the end field".
    pub fn refusal(self) -> Refusal {
        match self {
            Fault::Start | Fault::NoField | Fault::NoLength | Fault::NoContents => Refusal::FILE_CUT,
            Fault::Tag | Fault::Sequence | Fault::Length => Refusal::FILE_FIELD,
            Fault::Tail => Refusal::FILE_TAIL,
        }
    }
}

/// A field that was read. "each is read with the offset of the next", which is the end of the contents.
#[derive(Clone, Debug, PartialEq, Eq)]
pub struct Field {
    pub tag: u8,
    pub kind: Kind,
    /// Before it.
    pub stage: Stage,
    pub contents: Range<usize>,
}

impl Field {
    /// The places of all its bytes.
    pub fn bytes(&self) -> Range<usize> {
        self.contents.start - HEAD_BYTES..self.contents.end
    }
}

/// The length of a field that begins with these bytes, if it is there: "a two-byte length with the high byte first".
pub fn length_in(bytes: &[u8]) -> Option<usize> {
    let &[_, high, low] = bytes.first_chunk()?;
    Some(256 * usize::from(high) + usize::from(low))
}

/// Reads the field at this offset. "Within a field the tag is judged first, then its place in the sequence, where a 65th page
/// has none, then its length, then whether its contents are all there."
fn field_at(file: &[u8], offset: usize, stage: Stage) -> Result<Field, Fault> {
    let bytes = &file[offset..];
    let tag = *bytes.first().ok_or(Fault::NoField)?;
    let kind = Kind::of(tag).ok_or(Fault::Tag)?;
    stage.after(kind).ok_or(Fault::Sequence)?;
    let length = length_in(bytes).ok_or(Fault::NoLength)?;
    if kind.length().is_some_and(|only| only != length) {
        return Err(Fault::Length);
    }
    if bytes.len() < HEAD_BYTES + length {
        return Err(Fault::NoContents);
    }
    let contents = offset + HEAD_BYTES..offset + HEAD_BYTES + length;
    Ok(Field { tag, kind, stage, contents })
}

/// What was read of a file, up to its end or to the fault that is "met first".
pub struct Reading {
    pub fields: Vec<Field>,
    /// After these fields.
    pub stage: Stage,
    /// The offset after these fields: of the field with the fault, if there is one.
    pub next: usize,
    pub fault: Option<Fault>,
}

impl Reading {
    pub fn of(file: &[u8]) -> Reading {
        let mut reading = Reading { fields: Vec::new(), stage: Stage::Start, next: 0, fault: None };
        reading.fault = reading.read(file).err();
        reading
    }

    fn read(&mut self, file: &[u8]) -> Result<(), Fault> {
        if !file.starts_with(&START) {
            return Err(Fault::Start);
        }
        self.next = START.len();
        while !matches!(self.stage, Stage::End(_)) {
            let field = field_at(file, self.next, self.stage)?;
            self.next = field.contents.end;
            self.stage = self.stage.after(field.kind).expect("a field that was read has a place");
            self.fields.push(field);
        }
        if self.next < file.len() {
            return Err(Fault::Tail);
        }
        Ok(())
    }

    /// The bytes that tell the fault: none after them needs to be looked at. Of a sound file, and of one that ends too early,
    /// these are all.
    pub fn telling(&self, file: &[u8]) -> usize {
        match self.fault {
            Some(Fault::Start) => START.len().min(file.len()),
            Some(Fault::Tag | Fault::Sequence) => self.next + 1,
            Some(Fault::Length) => self.next + HEAD_BYTES,
            Some(Fault::Tail) => self.next,
            _ => file.len(),
        }
    }

    /// The contents of all fields of this kind, one after another.
    fn contents(&self, file: &[u8], kind: Kind) -> Vec<u8> {
        let fields = self.fields.iter().filter(|field| field.kind == kind);
        fields.flat_map(|field| &file[field.contents.clone()]).copied().collect()
    }
}

/// "The answer is the device number and the number of pages; output after the pages is unchanged." It refuses the fault that
/// is "met first, and after these 3 if the output is too short, writing nothing".
pub fn read_file(file: &[u8], output: &mut [u8]) -> Answer {
    let reading = Reading::of(file);
    if let Some(fault) = reading.fault {
        return Err(fault.refusal());
    }
    let [device, pages] = [Kind::Device, Kind::Page].map(|kind| reading.contents(file, kind));
    refuse_if(output.len() < pages.len(), Refusal::OUTPUT_LENGTH)?;
    output[..pages.len()].copy_from_slice(&pages);
    let device = u32::from_be_bytes(device.try_into().expect("one field of 4 bytes"));
    Ok(file_result(device, pages.len() / SMALL.bytes))
}

#[cfg(test)]
mod tests {
    use super::*;
    use crate::answer::{device_in, number, pages_in};
    use crate::file::{field, file_bytes, head, write_file};

    const DEVICE: [u8; 7] = [0x02, 0x00, 0x04, 0xFE, 0xDC, 0xBA, 0x98];
    const END: [u8; 3] = [0x7F, 0x00, 0x00];

    /// A field of a page that holds this byte alone.
    fn page(byte: u8) -> Vec<u8> {
        field(0x01, &[byte; 256])
    }

    /// The start, and these parts.
    fn file(parts: &[&[u8]]) -> Vec<u8> {
        [&[0xF1, 0xB0], &parts.concat()[..]].concat()
    }

    /// The answer, with an output of this length, and the output afterwards.
    fn read(file: &[u8], length: usize) -> (Answer, Vec<u8>) {
        let mut output = vec![0xA5; length];
        let answer = read_file(file, &mut output);
        (answer, output)
    }

    /// The number that refuses the file, whatever the output's length; nothing is written.
    fn refused(file: &[u8]) -> u8 {
        let [(none, _), (some, output)] = [0, 16_384].map(|length| read(file, length));
        assert_eq!(none, some);
        assert!(output == [0xA5; 16_384], "it writes nothing");
        let refusal = some.expect_err("it is refused");
        assert_eq!(refusal.index, 0);
        refusal.number
    }

    /// Each file that has these parts after its start, and then these other parts, is refused by this number.
    fn all_refused(number: u8, before: &[&[u8]], after: &[&[u8]]) {
        for part in after {
            let file = [&file(before)[..], part].concat();
            assert_eq!(refused(&file), number, "{:02X?}", &file[file.len().saturating_sub(20)..]);
        }
    }

    /// What stands before a field after each stage: nothing, the device number, and one, 63 and 64 pages after it.
    fn stages() -> [Vec<u8>; 5] {
        let with_pages = |count: usize| [&DEVICE[..], &page(7).repeat(count)].concat();
        [Vec::new(), with_pages(0), with_pages(1), with_pages(63), with_pages(64)]
    }

    #[test]
    fn no_page() {
        let file = [0xF1, 0xB0, 0x02, 0x00, 0x04, 0x01, 0x02, 0x03, 0x04, 0x7F, 0x00, 0x00];
        assert_eq!(read(&file, 0), (Ok(0x0102_0304), Vec::new()));
        assert_eq!(read(&file, 3), (Ok(0x0102_0304), vec![0xA5; 3]));
    }

    #[test]
    fn one_page() {
        let page: Vec<u8> = (0..=255).collect();
        let start = [0xF1, 0xB0, 0x02, 0x00, 0x04, 0xFE, 0xDC, 0xBA, 0x98, 0x01, 0x01, 0x00];
        let file = [&start, &page[..], &[0x7F, 0x00, 0x00]].concat();
        assert_eq!(read(&file, 256), (Ok(0x1_FEDC_BA98), page));
    }

    #[test]
    fn pages_stay_in_order() {
        let file = file(&[&DEVICE, &page(7), &page(8), &page(9), &END]);
        let (answer, output) = read(&file, 768);
        assert_eq!((answer, file.len()), (Ok(0x3_FEDC_BA98), 789));
        assert_eq!(output, [[7; 256], [8; 256], [9; 256]].concat());
    }

    #[test]
    fn every_device_number() {
        for device in (0..32).map(|bit| 1 << bit).chain([0, 0x0102_0304, u32::MAX]) {
            let (answer, _) = read(&file(&[&field(0x02, &device.to_be_bytes()), &page(7), &END]), 256);
            assert_eq!(answer.map(|result| (device_in(result), pages_in(result))), Ok((device, 1)));
        }
    }

    /// "What Change 1 writes must come back as the same pages in the same sequence, and the device number."
    #[test]
    fn what_is_written_is_read_back() {
        for (count, device) in (0..=64).flat_map(|count| [(count, 0x0102_0304), (count, u32::MAX)]) {
            let pages: Vec<u8> = (0..256 * count).map(|place| (place * 7 + place / 256 * 13) as u8).collect();
            let mut file = vec![0; file_bytes(count)];
            write_file(device, &pages, &mut file).expect("an output that is long enough");
            let (answer, output) = read(&file, 256 * count);
            assert_eq!(answer, Ok(u64::from(device) + (count as u64) * 0x1_0000_0000));
            assert_eq!(output, pages);
        }
    }

    #[test]
    fn output_after_the_pages_is_unchanged() {
        let (answer, output) = read(&file(&[&DEVICE, &page(7), &END]), 260);
        assert_eq!(answer, Ok(0x1_FEDC_BA98));
        assert_eq!(output, [&[7; 256][..], &[0xA5; 4]].concat());
    }

    /// "after these 3 if the output is too short, writing nothing".
    #[test]
    fn an_output_too_short() {
        for (count, output) in [(1, 0), (1, 1), (1, 255), (2, 256), (2, 511), (64, 0), (64, 16_383)] {
            let file = file(&[&DEVICE, &page(7).repeat(count), &END]);
            assert_eq!(read(&file, output), (Err(Refusal::OUTPUT_LENGTH), vec![0xA5; output]), "{count}");
            assert!(read(&file, 256 * count).0.is_ok());
        }
    }

    /// "The pages are not judged": one that is no page of any state, and ones that look like fields.
    #[test]
    fn pages_of_any_content() {
        for start in [&[0xFF; 3][..], &END, &DEVICE, &[0xF1, 0xB0]] {
            let contents = [start, &[0x7F; 256]].concat()[..256].to_vec();
            assert_eq!(read(&file(&[&DEVICE, &field(0x01, &contents), &END]), 256).1, contents);
        }
    }

    /// "14 for a wrong start": also of a file that is too short for one, and whatever follows.
    #[test]
    fn a_wrong_start() {
        for start in [&[][..], &[0xF1], &[0xB0], &[0xF1, 0xB1], &[0xF0, 0xB0], &[0xB0, 0xF1], &[0xF1, 0xF1]] {
            assert_eq!(refused(start), 14);
            let rests = [&END[..], &[0x80], &[0x01, 0x00], &DEVICE, &[&DEVICE[..], &END].concat()];
            let of_two = rests.into_iter().filter(|_| start.len() == 2);
            of_two.for_each(|rest| assert_eq!(refused(&[start, rest].concat()), 14));
        }
    }

    /// "a file that ends inside a field or before tag 7F": every prefix of a file.
    #[test]
    fn every_prefix() {
        let passed_over = [field(0x40, &[]), field(0x6F, &[1, 2, 3]), field(0x55, &[9; 300])];
        for file in [
            file(&[&DEVICE, &page(7), &page(8), &page(9), &END]),
            file(&[&passed_over[0], &passed_over[1], &DEVICE, &passed_over[2], &page(7), &passed_over[1], &END]),
        ] {
            assert!(read(&file, 768).0.is_ok());
            (0..file.len()).for_each(|length| assert_eq!(refused(&file[..length]), 14, "{length}"));
        }
    }

    /// "15 for another tag": at each stage, as the file's last byte, with one byte of a length, and whole.
    #[test]
    fn another_tag() {
        let known = |tag: &u8| matches!(tag, 0x01 | 0x02 | 0x40..=0x6F | 0x7F);
        for (before, tag) in stages().iter().flat_map(|before| (0..=255).map(move |tag| (before, tag))) {
            let met = [&[tag][..], &[tag, 0], &[tag, 0, 0], &[tag, 0, 4, 1, 2, 3, 4, 0x7F, 0, 0]];
            if !known(&tag) {
                all_refused(15, &[before], &met);
            }
        }
        assert_eq!((0..=255).filter(known).count(), 51);
        assert!((0..=255).all(|tag| known(&tag) == Kind::of(tag).is_some()));
    }

    /// "If the file's last byte is a tag, it is 15 where the tag is unknown or out of sequence, else 14. After a tag that has
    /// its place, one byte of a length alone is 14, whatever that byte is."
    #[test]
    fn the_last_byte_of_a_file() {
        let [nothing, device, one, many, most] = stages();
        all_refused(14, &[&nothing], &[&[0x02], &[0x40], &[0x6F], &[0x02, 0x00], &[0x02, 0xFF], &[0x40, 0xFF]]);
        all_refused(15, &[&nothing], &[&[0x01], &[0x7F], &[0x3F], &[0x70], &[0x01, 0x01], &[0x7F, 0x00]]);
        for before in [device, one, many] {
            all_refused(14, &[&before], &[&[0x01], &[0x7F], &[0x40], &[0x01, 0x01], &[0x01, 0x02], &[0x7F, 0x01]]);
            all_refused(15, &[&before], &[&[0x02], &[0x3F], &[0x70], &[0x02, 0x00]]);
        }
        all_refused(14, &[&most], &[&[0x7F], &[0x40], &[0x7F, 0x00], &[0x7F, 0xFF]]);
        all_refused(15, &[&most], &[&[0x02], &[0x01], &[0x70], &[0x01, 0x01]]);
    }

    /// "The device number is the first field not passed over" and "comes once".
    #[test]
    fn a_field_out_of_sequence() {
        let passed_over = field(0x40, &[1]);
        for before in [&[][..], &passed_over] {
            all_refused(
                15,
                &[before],
                &[&page(7), &END, &[&END[..], &DEVICE].concat(), &[&page(7)[..], &DEVICE].concat()],
            );
        }
        for before in &stages()[1..] {
            all_refused(
                15,
                &[before],
                &[&DEVICE, &[&DEVICE[..], &END].concat(), &[&passed_over[..], &DEVICE].concat()],
            );
        }
    }

    /// "where a 65th page has none": whatever follows its tag.
    #[test]
    fn a_65th_page() {
        let before = [&DEVICE[..], &page(7).repeat(64)].concat();
        let whole = [&page(8)[..], &END].concat();
        all_refused(15, &[&before], &[&[0x01], &[0x01, 0x01], &[0x01, 0x01, 0x00], &[0x01, 0, 0], &page(8), &whole]);
        all_refused(15, &[&before, &field(0x50, &[1, 2])], &[&whole, &[&page(8)[..], &whole].concat()]);
        assert!(read(&file(&[&before, &END]), 16_384).0.is_ok());
    }

    /// "a wrong length": with the contents that it tells, with none, and with those of the right length.
    #[test]
    fn a_wrong_length() {
        let [nothing, device, one, ..] = stages();
        for length in [0, 1, 2, 3, 5, 255, 256, 257, 0x0400, 0x0401, 0xFFFF] {
            all_wrong_lengths(&nothing, 0x02, length);
        }
        for length in [0, 1, 3, 4, 5, 255, 257, 512, 0x0101, 0x0200, 0x0400, 0xFF00, 0xFFFF] {
            all_wrong_lengths(&device, 0x01, length);
            all_wrong_lengths(&one, 0x01, length);
        }
        for length in [1, 2, 3, 4, 5, 255, 256, 257, 0x0400, 0xFFFF] {
            all_wrong_lengths(&device, 0x7F, length);
            all_wrong_lengths(&one, 0x7F, length);
        }
    }

    fn all_wrong_lengths(before: &[u8], tag: u8, length: u16) {
        let told = vec![9; usize::from(length)];
        let right = vec![9; Kind::of(tag).and_then(Kind::length).expect("the only length")];
        let contents = [&[][..], &told, &told[..told.len().saturating_sub(1)], &right, &[&right[..], &END].concat()];
        for after in contents.map(|contents| [&head(tag, length)[..], contents].concat()) {
            all_refused(15, &[before], &[&after, &[&after[..], &END].concat()]);
        }
    }

    /// A right length with contents that are not all there.
    #[test]
    fn contents_that_are_missing() {
        let [nothing, device, one, ..] = stages();
        (3..7).for_each(|length| all_refused(14, &[&nothing], &[&DEVICE[..length]]));
        for before in [device, one] {
            (3..259).for_each(|length| all_refused(14, &[&before], &[&page(7)[..length]]));
        }
    }

    /// "Tags 40 to 6F (hexadecimal) of any length are passed over": at each stage, with lengths up to the longest.
    #[test]
    fn fields_to_be_passed_over() {
        for (tag, length) in [(0x40, 0), (0x41, 1), (0x55, 4), (0x60, 256), (0x6E, 0x0400), (0x6F, 65_535)] {
            let field = field(tag, &vec![0x7F; length]);
            for parts in [
                [&field[..], &DEVICE, &page(7), &page(8), &END],
                [&DEVICE, &field, &page(7), &page(8), &END],
                [&DEVICE, &page(7), &field, &page(8), &END],
                [&DEVICE, &page(7), &page(8), &field, &END],
            ] {
                let (answer, output) = read(&file(&parts), 512);
                assert_eq!((answer, output), (Ok(0x2_FEDC_BA98), [[7; 256], [8; 256]].concat()), "{tag} {length}");
            }
            for before in stages() {
                let after: Vec<&[u8]> = [1, 2, 3, length / 2 + 3].map(|end| &field[..end]).to_vec();
                all_refused(14, &[&before], &after);
                all_refused(14, &[&before], &[&field, &field[..field.len() - 1]]);
            }
        }
    }

    #[test]
    fn many_fields_to_be_passed_over() {
        let many = field(0x4A, &[0x01]).repeat(10_000);
        let (answer, output) = read(&file(&[&many, &DEVICE, &many, &page(7), &many, &END]), 256);
        assert_eq!((answer, output), (Ok(0x1_FEDC_BA98), vec![7; 256]));
        all_refused(14, &[&many], &[&[], &[0x4A]]);
        all_refused(15, &[&many], &[&page(7), &[0x80]]);
    }

    /// "16 for bytes after the end field": whatever they are, and after any number of pages.
    #[test]
    fn bytes_after_the_end_field() {
        for before in &stages()[1..] {
            let tails = [&[0x00][..], &[0x7F], &[0x40], &END, &DEVICE, &page(7), &[0xF1, 0xB0], &[0; 1_000]];
            all_refused(16, &[before, &END], &tails);
        }
    }

    /// "Tag 7F with length 0 ends the file": with another length it is 15, with and without contents, and before 16.
    #[test]
    fn an_end_field_with_contents() {
        let tails = [&[][..], &[0x00], &[0x00, 0x00], &END];
        all_refused(15, &[&DEVICE, &[0x7F, 0x00, 0x01]], &tails);
        all_refused(15, &[&DEVICE, &[0x7F, 0x01, 0x00]], &tails);
    }

    /// "whichever is met first": 15 in one field, and 14, 15 or 16 in a later one; and the other way round.
    #[test]
    fn the_first_fault_of_two() {
        let fields: [&[u8]; 6] = [&[0x80, 0, 0], &DEVICE, &[0x01, 0x00, 0xFF], &[0x7F, 0x00, 0x01], &[0x00], &[0x70]];
        let cuts: [&[u8]; 5] = [&[], &[0x01], &[0x7F, 0x00], &[0x01, 0x01, 0x00, 7], &[0x40, 0x00, 0x02, 1]];
        for (first, second) in fields.into_iter().flat_map(|first| fields.map(|second| (first, second))) {
            all_refused(15, &[&DEVICE, first], &[second, &page(7), &END, &[&END[..], second].concat()]);
        }
        for (first, second) in fields.into_iter().flat_map(|first| cuts.map(|second| (first, second))) {
            all_refused(15, &[&DEVICE, &page(7), first], &[second]);
        }
        // After the end field, nothing is a field; and contents take in what looks like one.
        for after in fields.into_iter().chain(cuts).filter(|after| !after.is_empty()) {
            all_refused(16, &[&DEVICE, &page(7), &END], &[after]);
            all_refused(14, &[&DEVICE, &[0x01, 0x01, 0x00]], &[after]);
            all_refused(14, &[&DEVICE, &[0x40, 0xFF, 0xFF]], &[after]);
        }
    }

    /// Each fault with an output that is too short for the pages before it: 3 is for sound files alone.
    #[test]
    fn an_output_too_short_comes_last() {
        let [.., many, _] = stages();
        all_refused(14, &[&many], &[&[], &[0x01], &[0x7F], &[0x7F, 0x00], &page(7)[..258]]);
        all_refused(15, &[&many], &[&[0x02], &[0x80], &[0x7F, 0x00, 0x01]]);
        all_refused(16, &[&many, &END], &[&[0x00]]);
        assert_eq!(number(read(&file(&[&many, &END]), 0).0), 3);
    }

    /// The fields, and the offset after them; the bytes that tell the fault.
    #[test]
    fn what_was_read_of_a_file() {
        let device = file(&[&DEVICE]);
        for (after, stage, fault, next, telling) in [
            (&[][..], Stage::Pages(0), Some(Fault::NoField), 9, 9),
            (&[0x01], Stage::Pages(0), Some(Fault::NoLength), 9, 10),
            (&[0x01, 0x01, 0x00, 7], Stage::Pages(0), Some(Fault::NoContents), 9, 13),
            (&[0x80, 0x01, 0x00, 7], Stage::Pages(0), Some(Fault::Tag), 9, 10),
            (&[0x02, 0x00, 0x04, 7], Stage::Pages(0), Some(Fault::Sequence), 9, 10),
            (&[0x01, 0x01, 0x01, 7], Stage::Pages(0), Some(Fault::Length), 9, 12),
            (&[0x7F, 0x00, 0x00], Stage::End(0), None, 12, 12),
            (&[0x7F, 0x00, 0x00, 7, 7], Stage::End(0), Some(Fault::Tail), 12, 12),
            (&[0x40, 0x00, 0x02, 7, 7], Stage::Pages(0), Some(Fault::NoField), 14, 14),
        ] {
            let file = [&device[..], after].concat();
            let reading = Reading::of(&file);
            assert_eq!((reading.stage, reading.fault, reading.next), (stage, fault, next));
            assert_eq!(reading.telling(&file), telling);
            let first = Field { tag: 0x02, kind: Kind::Device, stage: Stage::Start, contents: 5..9 };
            assert_eq!(reading.fields[0], first);
            assert_eq!(reading.fields.last().map(|field| field.contents.end), Some(next));
        }
        for (file, telling) in [(&[][..], 0), (&[0xF1], 1), (&[0xF0, 0xB0, 0x02], 2)] {
            let reading = Reading::of(file);
            assert_eq!((reading.fault, reading.next, reading.telling(file)), (Some(Fault::Start), 0, telling));
            assert!(reading.fields.is_empty());
        }
    }

    /// No byte after those that tell the fault changes the answer.
    #[test]
    fn bytes_after_the_telling_ones() {
        for file in [
            vec![0xF1, 0xB1],
            file(&[&[0x80]]),
            file(&[&[0x7F]]),
            file(&[&DEVICE, &page(7), &DEVICE[..1]]),
            file(&[&DEVICE, &[0x7F, 0x00, 0x01]]),
        ] {
            let answer = read(&file, 0).0;
            assert_eq!(Reading::of(&file).telling(&file), file.len());
            for more in [&[0x00][..], &END, &DEVICE, &[0xFF; 600]] {
                assert_eq!(read(&[&file, more].concat(), 0).0, answer);
            }
        }
    }
}
