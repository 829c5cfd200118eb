//! A reply's records as tests write them, from their fields.

/// An item, of the positions and lengths of its keyword and its value.
pub fn item(keyword: (u16, u16), value: (u16, u16)) -> Vec<u8> {
    let fields = [keyword.0, keyword.1, value.0, value.1];
    [&[64][..], &fields.map(u16::to_be_bytes).concat()].concat()
}

/// The beginning of a group, of its name's position and length.
pub fn group(position: u16, length: u16) -> Vec<u8> {
    [
        &[65][..],
        &[position, length].map(u16::to_be_bytes).concat(),
    ]
    .concat()
}

pub const END_GROUP: &[u8] = &[66];
pub const END_OUTPUT: &[u8] = &[67];
