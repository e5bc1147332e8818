//! The bytes of a checkpoint, by document 01.

/// Where an examination stands.
#[derive(Clone, Copy, Debug, Default, PartialEq, Eq)]
pub struct Place {
    pub phase: u8,
    pub path: u16,
    pub mask: u32,
    pub count: u32,
}

/// `BVC`, 16-bit version 1, phase (1 byte), path (2), mask (4), count (4), then the whole image.
pub fn checkpoint(place: Place, image: &[u8]) -> Vec<u8> {
    let Place { phase, path, mask, count } = place;
    [b"BVC\x00\x01", &[phase][..], &path.to_be_bytes(), &mask.to_be_bytes(), &count.to_be_bytes(), image].concat()
}

#[cfg(test)]
mod tests {
    use super::*;

    /// Each number stands at its own bytes, the first of them first.
    #[test]
    fn every_byte_is_where_document_01_has_it() {
        let place = Place { phase: 1, path: 0x0203, mask: 0x0405_0607, count: 0x0809_0a0b };
        assert_eq!(checkpoint(place, b"BVN"), *b"BVC\x00\x01\x01\x02\x03\x04\x05\x06\x07\x08\x09\x0a\x0bBVN");
    }
}
