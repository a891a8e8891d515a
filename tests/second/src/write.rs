//! From records to a sheet's bytes, and fields of finished bytes set to other values: how sheets to compare on are made.

use crate::reference::bits::{bytes_of, field, string_of};
use crate::reference::Sheet;

/// A field of a sheet: its first bit and its width.
#[derive(Clone, Copy, Debug)]
pub struct Field {
    pub at: usize,
    pub width: usize,
}

/// The bits of a sheet, with the place of each field in file order.
struct Draft {
    text: String,
    fields: Vec<Field>,
}

impl Draft {
    fn put(&mut self, value: u64, width: usize) {
        self.fields.push(Field { at: self.text.len(), width });
        self.text += &field(value, width);
    }
}

fn draft(sheet: &Sheet) -> Draft {
    let mut out = Draft { text: String::new(), fields: vec![] };
    out.put(1, 4);
    out.put(sheet.modules.len() as u64, 5);
    out.put(sheet.partitions.len() as u64, 7);
    out.put(sheet.exclusions.len() as u64, 9);
    out.put(sheet.chains.len() as u64, 6);
    out.put(0, 1);
    for module in &sheet.modules {
        out.put(module.cabinet, 3);
        out.put(module.memory, 20);
        out.put(module.most, 7);
    }
    for delay in sheet.delays.iter().flatten() {
        out.put(*delay, 16);
    }
    for partition in &sheet.partitions {
        out.put(partition.period, 16);
        out.put(partition.budget, 16);
        out.put(partition.memory, 20);
    }
    for exclusion in &sheet.exclusions {
        out.put(exclusion.cabinet as u64, 1);
        out.put(exclusion.first as u64, 6);
        out.put(exclusion.second as u64, 6);
    }
    for chain in &sheet.chains {
        out.put(chain.limit, 24);
        out.put(chain.members.len() as u64, 5);
        for member in &chain.members {
            out.put(*member as u64, 6);
        }
    }
    out
}

/// The bytes of a sheet. Its values must fit their fields; no rule is tested.
pub fn sheet_bytes(sheet: &Sheet) -> Vec<u8> {
    bytes_of(&draft(sheet).text)
}

/// Every field of a sheet, in file order.
pub fn sheet_fields(sheet: &Sheet) -> Vec<Field> {
    draft(sheet).fields
}

/// The bytes with one field set to another value.
pub fn with_field(bytes: &[u8], place: Field, value: u64) -> Vec<u8> {
    let text = string_of(bytes);
    bytes_of(&(text[..place.at].to_string() + &field(value, place.width) + &text[place.at + place.width..]))
}

/// The bytes with one bit turned over.
pub fn with_flip(bytes: &[u8], bit: usize) -> Vec<u8> {
    let mut flipped = bytes.to_vec();
    flipped[bit / 8] ^= 128 >> (bit % 8);
    flipped
}
