//! What the formats of policy and message share: "a bit map, then only the fields whose bit stands", and
//! "multi-byte fields are little-endian, unsigned".

/// The fields of one bit map: bit k of the map tells whether field k is written.
pub struct Fields {
    pub map: u8,
    written: Vec<Option<usize>>,
    /// The place of the first byte after the last written field.
    pub end: usize,
}

impl Fields {
    /// "An absent field is 0."
    pub fn value(&self, field: usize) -> usize {
        self.written[field].unwrap_or(0)
    }

    pub fn is_written(&self, field: usize) -> bool {
        self.written[field].is_some()
    }

    /// "A written field is not 0": whether one is.
    pub fn has_written_zero(&self) -> bool {
        self.written.contains(&Some(0))
    }

    /// Whether this bit of the map stands.
    pub fn bit(&self, bit: u32) -> bool {
        self.map >> bit & 1 == 1
    }
}

/// The bit map at `place` and its fields, field k being of `sizes[k]` bytes. None if the bytes end early.
pub fn read_fields(bytes: &[u8], place: usize, sizes: &[usize]) -> Option<Fields> {
    let map = *bytes.get(place)?;
    let mut fields = Fields { map, written: Vec::new(), end: place + 1 };
    for (bit, size) in sizes.iter().enumerate() {
        if map >> bit & 1 == 1 {
            let field = bytes.get(fields.end..fields.end + size)?;
            fields.written.push(Some(little_endian(field)));
            fields.end += size;
        } else {
            fields.written.push(None);
        }
    }
    Some(fields)
}

/// The bit map and the fields of these values, "with only its non-zero fields"; `flags` are the map's bits that are no
/// field's. Each value fits its size.
pub fn write_fields(flags: u8, values: &[usize], sizes: &[usize]) -> Vec<u8> {
    let mut map = flags;
    let mut fields = Vec::new();
    for (bit, (value, size)) in values.iter().zip(sizes).enumerate() {
        if *value != 0 {
            map |= 1 << bit;
            fields.extend(little_endian_bytes(*value, *size));
        }
    }
    [vec![map], fields].concat()
}

/// The number in so many bytes, the lowest byte first.
pub fn little_endian_bytes(number: usize, size: usize) -> Vec<u8> {
    let places = (0..size as u32).map(|place| number / 256usize.pow(place));
    places.map(|number| (number % 256) as u8).collect()
}

/// The number that these bytes are, the lowest byte first.
pub fn little_endian(bytes: &[u8]) -> usize {
    bytes.iter().rev().fold(0, |number, byte| number * 256 + *byte as usize)
}
