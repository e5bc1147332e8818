//! Damaged copies of random contracts. What is known of one follows from the field that is damaged: everything before it still reads.

use super::rng::Rng;
use super::{base, Case, Known, Request};
use crate::tree::{most, ops, size, tag, Contract};
use crate::writing::{write, write_fields, Field, FieldKind};

/// The greatest size of a copy of which nothing is known: so small that no path of it has many atoms.
const SMALL: usize = 400;

/// An image with its fields.
struct Copy {
    contract: Contract,
    image: Vec<u8>,
    fields: Vec<Field>,
}

impl Copy {
    /// A contract's image.
    fn new(contract: Contract) -> Copy {
        let (image, fields) = write_fields(&contract);
        Copy { contract, image, fields }
    }

    /// The image with other bytes at a place.
    fn with(&self, place: usize, bytes: &[u8]) -> Vec<u8> {
        let mut image = self.image.clone();
        image[place..place + bytes.len()].copy_from_slice(bytes);
        image
    }

    /// The fields that hold one of these kinds.
    fn fields_of(&self, kinds: &[FieldKind]) -> Vec<Field> {
        self.fields.iter().filter(|field| kinds.contains(&field.kind)).copied().collect()
    }
}

/// A field's name in document 01's words.
pub fn name(kind: FieldKind) -> &'static str {
    match kind {
        FieldKind::Mark => "mark",
        FieldKind::Version => "version",
        FieldKind::Mode => "mode",
        FieldKind::Tag => "tag",
        FieldKind::Location => "location",
        FieldKind::Count => "count",
        FieldKind::Flag => "flag",
        FieldKind::Op => "op",
        FieldKind::Number => "number",
        FieldKind::Boolean => "boolean",
        FieldKind::Length => "length",
        FieldKind::Bytes => "bytes",
    }
}

/// One damaged copy.
pub fn one(rng: &mut Rng, request: &Request) -> Case {
    match rng.below(100) {
        0..=19 => cut_somewhere(rng, request),
        20..=39 => unknown_somewhere(rng, request),
        40..=44 => lengthened(rng, request),
        45..=52 => recounted(rng, request),
        53..=57 => relengthened(rng, request),
        58..=60 => other_head(rng, request),
        61 => too_long(rng, request),
        62..=79 => flipped(rng, request),
        80..=92 => overwritten(rng, request),
        _ => shifted(rng, request),
    }
}

/// The image up to a length that lies in a field.
pub fn cut(kind: &str, image: &[u8], field: &Field, length: usize) -> Case {
    let image = image[..length].to_vec();
    match field.kind {
        FieldKind::Mark => Case::refused(kind, image, 1, 0),
        _ => Case::refused(kind, image, 3, field.item),
    }
}

/// A cut in a field of any kind, the kinds drawn first.
fn cut_somewhere(rng: &mut Rng, request: &Request) -> Case {
    let copy = Copy::new(base(rng, request, usize::MAX));
    let fields: Vec<Field> = copy.fields.iter().filter(|field| field.length > 0).copied().collect();
    let field = pick_by_kind(rng, &fields);
    let length = field.start + rng.below(field.length);
    cut(&format!("cut: {}", name(field.kind)), &copy.image, &field, length)
}

/// A field of a kind that is drawn first, so that rare kinds are not rare.
fn pick_by_kind(rng: &mut Rng, fields: &[Field]) -> Field {
    let kind = fields[rng.below(fields.len())].kind;
    let mut kinds: Vec<FieldKind> = vec![kind];
    for field in fields {
        if !kinds.contains(&field.kind) {
            kinds.push(field.kind);
        }
    }
    let kind = rng.pick(&kinds);
    let those: Vec<Field> = fields.iter().filter(|field| field.kind == kind).copied().collect();
    rng.pick(&those)
}

/// A code field with a value that it does not have.
fn unknown(rng: &mut Rng, copy: &Copy, field: &Field) -> Option<Case> {
    let code = match field.kind {
        FieldKind::Tag => unknown_tag(rng, copy.image[field.start]),
        FieldKind::Op => unknown_code(rng, op_count(copy.image[field.item])),
        FieldKind::Mode | FieldKind::Flag | FieldKind::Boolean => unknown_code(rng, 2),
        _ => return None,
    };
    Some(Case::refused(format!("unknown: {}", name(field.kind)), copy.with(field.start, &[code]), 4, field.item))
}

/// A code from the first unknown one on.
fn unknown_code(rng: &mut Rng, first: u8) -> u8 {
    let any = rng.between(first as usize, 255) as u8;
    rng.pick(&[first, any, 255])
}

/// How many ops an item with this tag has.
pub fn op_count(item: u8) -> u8 {
    match item {
        tag::LOCKTIME => ops::LOCKTIME,
        tag::LOGICAL => ops::LOGICAL,
        tag::COMPARE => ops::COMPARE,
        tag::UNARY => ops::UNARY,
        tag::BINARY => ops::BINARY,
        _ => ops::HASH,
    }
}

/// A tag that is unknown where the tag `known` stands.
fn unknown_tag(rng: &mut Rng, known: u8) -> u8 {
    let any = rng.between(27, 255) as u8;
    match known {
        tag::IF..=tag::RETURN => rng.pick(&[0, 5, 15, 16, 20, 26, 27, any]),
        _ => rng.pick(&[0, 1, 2, 3, 4, 15, 27, any]),
    }
}

/// An unknown value in a code field of any kind.
fn unknown_somewhere(rng: &mut Rng, request: &Request) -> Case {
    let copy = Copy::new(base(rng, request, usize::MAX));
    let codes = copy.fields_of(&[FieldKind::Mode, FieldKind::Tag, FieldKind::Flag, FieldKind::Op, FieldKind::Boolean]);
    let field = pick_by_kind(rng, &codes);
    unknown(rng, &copy, &field).expect("the field holds a code")
}

/// Bytes left over.
fn lengthened(rng: &mut Rng, request: &Request) -> Case {
    let mut image = write(&base(rng, request, most::BYTES - 100));
    let length = image.len();
    let more = rng.pick(&[1, 1, 2, 17, 100]);
    image.extend(rng.bytes(more));
    Case::refused("lengthened", image, 7, length)
}

/// Another count of the top list, or of a block.
fn recounted(rng: &mut Rng, request: &Request) -> Case {
    let copy = Copy::new(base(rng, request, SMALL));
    let count = copy.contract.statements.len() as u16;
    let place = copy.fields_of(&[FieldKind::Count])[0].start;
    match rng.below(4) {
        0 => Case::refused("count: one more", copy.with(place, &(count + 1).to_be_bytes()), 3, copy.image.len()),
        1 if count > 0 => {
            let mut shorter = copy.contract.clone();
            shorter.statements.pop();
            Case::refused("count: one fewer", copy.with(place, &(count - 1).to_be_bytes()), 7, write(&shorter).len())
        }
        _ => {
            let field = rng.pick(&copy.fields_of(&[FieldKind::Count]));
            let other = rng.pick(&[0, 1, 2, 3, 256, 65535]) as u16;
            Case::new("count: another", copy.with(field.start, &other.to_be_bytes()), Known::Nothing)
        }
    }
}

/// Another length of a string; without a string, other bits.
fn relengthened(rng: &mut Rng, request: &Request) -> Case {
    let copy = Copy::new(base(rng, request, SMALL));
    let lengths = copy.fields_of(&[FieldKind::Length]);
    if lengths.is_empty() {
        return flipped(rng, request);
    }
    let field = rng.pick(&lengths);
    let length = u16::from_be_bytes([copy.image[field.start], copy.image[field.start + 1]]);
    match rng.below(3) {
        0 => Case::refused("length: beyond the image", copy.with(field.start, &[255, 255]), 3, field.item),
        1 => Case::new("length: one more", copy.with(field.start, &length.wrapping_add(1).to_be_bytes()), Known::Nothing),
        _ => Case::new("length: one fewer", copy.with(field.start, &length.wrapping_sub(1).to_be_bytes()), Known::Nothing),
    }
}

/// Another version.
fn reversioned(rng: &mut Rng, copy: &Copy) -> Case {
    let any = rng.between(2, 65535) as u16;
    let version = rng.pick(&[0, 2, 256, 257, 65535, any]);
    Case::refused("version", copy.with(3, &version.to_be_bytes()), 2, 3)
}

/// Another mark or version.
fn other_head(rng: &mut Rng, request: &Request) -> Case {
    let copy = Copy::new(base(rng, request, SMALL));
    if rng.percent(50) {
        return reversioned(rng, &copy);
    }
    let place = rng.below(3);
    let bit = 1 << rng.below(8);
    Case::refused("mark", copy.with(place, &[copy.image[place] ^ bit]), 1, 0)
}

/// An image over the greatest size, whatever stands in it.
fn too_long(rng: &mut Rng, request: &Request) -> Case {
    let mut image = match rng.percent(50) {
        true => write(&base(rng, request, SMALL)),
        false => rng.bytes(9),
    };
    let length = most::BYTES + rng.pick(&[1, 1, 2, 999]);
    image.resize(length, rng.byte());
    Case::refused("too long", image, 8, 0)
}

/// A bit or a few that are not what they were.
fn flipped(rng: &mut Rng, request: &Request) -> Case {
    let mut image = write(&base(rng, request, SMALL));
    for _ in 0..rng.pick(&[1, 1, 1, 2, 4]) {
        let place = rng.below(image.len());
        image[place] ^= 1 << rng.below(8);
    }
    Case::new("flipped", image, Known::Nothing)
}

/// A field of any kind with other bytes, small ones more often.
fn overwritten(rng: &mut Rng, request: &Request) -> Case {
    let copy = Copy::new(base(rng, request, SMALL));
    let fields: Vec<Field> = copy.fields.iter().filter(|field| field.length > 0).copied().collect();
    let field = pick_by_kind(rng, &fields);
    let mut bytes = match rng.percent(50) {
        true => rng.bytes(field.length),
        false => vec![0; field.length],
    };
    bytes[field.length - 1] = rng.pick(&[0, 1, 2, 3, 4, 16, 18, 20, 25, bytes[0]]);
    Case::new(format!("overwritten: {}", name(field.kind)), copy.with(field.start, &bytes), Known::Nothing)
}

/// A byte taken out, put in, or a stretch taken out.
fn shifted(rng: &mut Rng, request: &Request) -> Case {
    let mut image = write(&base(rng, request, SMALL));
    let place = rng.below(image.len());
    match rng.below(3) {
        0 => drop(image.remove(place)),
        1 => image.insert(place, rng.byte()),
        _ => drop(image.drain(place..(place + size::ITEM).min(image.len()))),
    }
    Case::new("shifted", image, Known::Nothing)
}
