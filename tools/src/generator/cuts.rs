//! One fixed contract that holds every tag and every kind of field: cut at every byte, and with every code field unknown.

use super::damage::{cut, name, op_count};
use super::units::*;
use super::Case;
use crate::tree::*;
use crate::writing::{write_fields, Field, FieldKind};

/// Every cut of the contract's image, every code of it unknown, and the image itself.
pub fn cuts(mode: u8) -> Vec<Case> {
    let (image, fields) = write_fields(&whole(mode));
    let shorter = fields.iter().flat_map(|field| every_cut(&image, field));
    let unknown = fields.iter().flat_map(|field| every_unknown(&image, field));
    shorter.chain(unknown).chain([Case::accepted("cuts: nothing cut", image.clone())]).collect()
}

/// The contract: every statement, an if with and without else, blocks with and without statements, every tag of an expression.
pub fn whole(mode: u8) -> Contract {
    let sum = plus(length(text(&[0, 0x80, 5])), lit(-2));
    let inner = ifs(not(x()), vec![ret(and(c(), no()))]);
    let statements = vec![
        Stmt::new(StmtKind::Locktime { op: 1, operand: 144 }),
        verify(compare(3, sum, hash(x()))),
        ifelse(yes(), vec![inner], vec![ret(or(c(), text(&[])))]),
        ifs(x(), vec![]),
        ifelse(c(), vec![], vec![]),
    ];
    Contract { mode, statements }
}

/// The image cut before each byte of a field.
fn every_cut(image: &[u8], field: &Field) -> Vec<Case> {
    let kind = format!("cuts: {} cut", name(field.kind));
    (field.start..field.start + field.length).map(|length| cut(&kind, image, field, length)).collect()
}

/// A code field with each value that a reader may take for a known one.
fn every_unknown(image: &[u8], field: &Field) -> Vec<Case> {
    let unknown = format!("cuts: {} unknown", name(field.kind));
    let other_sort = "cuts: tag of the other sort";
    match field.kind {
        FieldKind::Tag if image[field.start] <= tag::RETURN => {
            vec![coded(&unknown, image, field, tag::RETURN + 1), coded(other_sort, image, field, tag::VARIABLE)]
        }
        FieldKind::Tag => vec![coded(&unknown, image, field, tag::LENGTH + 1), coded(other_sort, image, field, tag::RETURN)],
        FieldKind::Op => [op_count(image[field.item]), 255].map(|op| coded(&unknown, image, field, op)).to_vec(),
        FieldKind::Mode | FieldKind::Flag | FieldKind::Boolean => [2, 255].map(|code| coded(&unknown, image, field, code)).to_vec(),
        _ => vec![],
    }
}

/// The image with an unknown code in a field.
fn coded(kind: &str, image: &[u8], field: &Field, code: u8) -> Case {
    let mut image = image.to_vec();
    image[field.start] = code;
    Case::refused(kind, image, 4, field.item)
}
