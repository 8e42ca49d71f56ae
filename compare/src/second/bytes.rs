//! Big-endian numbers, and fields of a one-byte tag, a two-byte length and a value.

/// The bytes before a field's value.
pub const HEAD: usize = 3;

pub fn u16_at(bytes: &[u8], at: usize) -> u16 {
    bytes[at] as u16 * 256 + bytes[at + 1] as u16
}

pub fn u32_at(bytes: &[u8], at: usize) -> u32 {
    u16_at(bytes, at) as u32 * 65_536 + u16_at(bytes, at + 2) as u32
}

pub fn u64_at(bytes: &[u8], at: usize) -> u64 {
    u32_at(bytes, at) as u64 * (1 << 32) + u32_at(bytes, at + 4) as u64
}

/// Two's complement: from 32,768 on, the number stands for itself less 65,536.
pub fn i16_at(bytes: &[u8], at: usize) -> i16 {
    let unsigned = u16_at(bytes, at) as i32;
    if unsigned >= 32_768 {
        (unsigned - 65_536) as i16
    } else {
        unsigned as i16
    }
}

/// Two's complement: from 2^31 on, the number stands for itself less 2^32.
pub fn i32_at(bytes: &[u8], at: usize) -> i32 {
    let unsigned = u32_at(bytes, at) as i64;
    if unsigned >= 1 << 31 {
        (unsigned - (1 << 32)) as i32
    } else {
        unsigned as i32
    }
}

/// The value of the field that begins at `at`, a part of the record, if its tag and length are
/// these and it lies whole inside the record.
pub fn field(record: &[u8], at: usize, tag: u8, length: usize) -> Option<&[u8]> {
    let value_at = at.checked_add(HEAD)?;
    let end = value_at.checked_add(length)?;
    if end > record.len() {
        return None;
    }
    if record[at] != tag || u16_at(record, at + 1) as usize != length {
        return None;
    }
    Some(&record[value_at..end])
}

/// The length of all the fields of a layout of (tag, length).
pub fn layout_length(layout: &[(u8, usize)]) -> usize {
    layout.iter().map(|(_, length)| HEAD + length).sum()
}

/// Whether these bytes are the fields of the layout in order: whole, with every tag and length
/// right and nothing after.
pub fn layout_is_right(bytes: &[u8], layout: &[(u8, usize)]) -> bool {
    if bytes.len() != layout_length(layout) {
        return false;
    }
    let mut at = 0;
    for &(tag, length) in layout {
        if field(bytes, at, tag, length).is_none() {
            return false;
        }
        at += HEAD + length;
    }
    true
}

/// The value of the field with this index in bytes whose layout is right.
pub fn value<'a>(bytes: &'a [u8], layout: &[(u8, usize)], index: usize) -> &'a [u8] {
    let (tag, length) = layout[index];
    let at = layout_length(&layout[..index]);
    field(bytes, at, tag, length).expect("the layout was found right")
}

#[cfg(test)]
mod tests {
    use super::*;

    #[test]
    fn numbers_are_big_endian_and_twos_complement() {
        let bytes = [0x80, 0x00, 0x00, 0x01, 0xff, 0xff, 0xff, 0xfe, 0x7f, 0xff];
        assert_eq!(u16_at(&bytes, 0), 32_768);
        assert_eq!(u16_at(&bytes, 2), 1);
        assert_eq!(i16_at(&bytes, 0), -32_768);
        assert_eq!(i16_at(&bytes, 4), -1);
        assert_eq!(i16_at(&bytes, 8), 32_767);
        assert_eq!(u32_at(&bytes, 0), 2_147_483_649);
        assert_eq!(i32_at(&bytes, 0), -2_147_483_647);
        assert_eq!(i32_at(&bytes, 4), -2);
        assert_eq!(u64_at(&bytes, 0), 0x8000_0001_ffff_fffe);
        assert_eq!(u64_at(&bytes, 2), 0x0001_ffff_fffe_7fff);
    }

    #[test]
    fn a_field_is_found_only_whole_and_with_its_tag_and_length() {
        let bytes = [9, 0x31, 0, 2, 5, 6];
        assert_eq!(field(&bytes, 1, 0x31, 2), Some(&bytes[4..6]));
        assert_eq!(field(&bytes, 0, 0x31, 2), None);
        assert_eq!(field(&bytes, 1, 0x30, 2), None);
        assert_eq!(field(&bytes, 1, 0x31, 1), None);
        assert_eq!(field(&bytes, 1, 0x31, 3), None);
        assert_eq!(field(&bytes[..5], 1, 0x31, 2), None);
        assert_eq!(field(&bytes, usize::MAX, 0x31, 2), None);
        assert_eq!(field(&bytes, 1, 0x31, usize::MAX), None);
        assert_eq!(field(&[7, 0, 0], 0, 7, 0), Some(&[][..]));
    }

    #[test]
    fn a_layout_is_right_only_without_rest() {
        let layout = [(1, 1), (2, 0)];
        let bytes = [1, 0, 1, 9, 2, 0, 0];
        assert!(layout_is_right(&bytes, &layout));
        assert!(!layout_is_right(&bytes[..6], &layout));
        assert!(!layout_is_right(&[1, 0, 1, 9, 2, 0, 0, 0], &layout));
        assert!(layout_is_right(&[], &[]));
        for at in [0, 1, 2, 4, 5, 6] {
            for change in [1, 255] {
                let mut wrong = bytes;
                wrong[at] = wrong[at].wrapping_add(change);
                assert!(!layout_is_right(&wrong, &layout), "byte {at}");
            }
        }
        assert_eq!(value(&bytes, &layout, 0), &[9]);
    }
}
