//! The commands that start from a symbol's text.

use std::fmt::Write;

use crate::base::{MagneticOperations, Operation, Operations};
use crate::data::hall_symbol::{HallSymbol, LayerHallSymbol, MagneticHallSymbol};
use crate::data::hall_symbol_database::hall_symbol_entry;
use crate::data::layer::layer_hall_symbol_database::iter_layer_hall_symbol_entry;
use crate::data::magnetic::magnetic_hall_symbol_database::magnetic_hall_symbol_entry;
use crate::subgroup::tables;

/// A finite group of whole 3x3 matrices has at most this many members.
const MOST_ROTATIONS: u64 = 48;

/// Each of them once with time reversal and once without.
const MOST_FLAGGED: u64 = 2 * MOST_ROTATIONS;

/// Decodes the text and hands it to a command: `utf8` if it is not UTF-8, `none` where the original
/// answers `None`.
pub fn answer(hex: &str, command: impl Fn(&str) -> Option<String>) -> Option<String> {
    let bytes = text_bytes(hex)?;
    Some(match std::str::from_utf8(&bytes) {
        Err(_) => "utf8".to_string(),
        Ok(text) => command(text).unwrap_or_else(|| "none".to_string()),
    })
}

/// Two hex digits a byte; `-` is the empty text.
fn text_bytes(hex: &str) -> Option<Vec<u8>> {
    if hex == "-" {
        return Some(vec![]);
    }
    if hex.is_empty() || hex.len() % 2 != 0 || !hex.is_ascii() {
        return None;
    }
    (0..hex.len())
        .step_by(2)
        .map(|i| u8::from_str_radix(&hex[i..i + 2], 16).ok())
        .collect()
}

pub fn operations(text: &str) -> Option<String> {
    HallSymbol::new(text).map(|symbol| listed(&traverse(&symbol)))
}

/// The operations of a layer symbol, after its letter as the original has it.
pub fn layer_operations(text: &str) -> Option<String> {
    LayerHallSymbol::new(text).map(|symbol| {
        nalgebra::products::allow(Some(MOST_ROTATIONS * symbol.generators().len() as u64));
        let list = symbol.traverse();
        nalgebra::products::allow(None);
        format!("{:?} {}", symbol.centering(), listed(&list))
    })
}

/// The operations of a magnetic symbol with their time reversals, after its letter.
pub fn magnetic_operations(text: &str) -> Option<String> {
    MagneticHallSymbol::new(text).map(|symbol| {
        nalgebra::products::allow(Some(MOST_FLAGGED * symbol.generators.len() as u64));
        let list = symbol.traverse();
        nalgebra::products::allow(None);
        format!("{:?} {}", symbol.centering, listed_with_flags(&list))
    })
}

pub fn magnetic_generators(text: &str) -> Option<String> {
    MagneticHallSymbol::new(text).map(|symbol| {
        let points = symbol.centering_translations.len() + 1;
        format!(
            "{:?} {} {}",
            symbol.centering,
            points,
            listed_with_flags(&symbol.generators)
        )
    })
}

pub fn generators(text: &str) -> Option<String> {
    HallSymbol::new(text).map(|symbol| {
        let points = symbol.centering_translations.len() + 1;
        format!(
            "{:?} {} {}",
            symbol.centering,
            points,
            listed(&symbol.generators)
        )
    })
}

/// The symbol's list given back to the original, to make a table of it within a tolerance.
pub fn from_operations(text: &str, epsilon: f64) -> Option<String> {
    HallSymbol::new(text).map(|symbol| tables::from_operations(&traverse(&symbol), epsilon))
}

/// The original makes one product for each listed operation and generator. More products than
/// `MOST_ROTATIONS` members ask for mean that the generated rotations are not finite in number, and then
/// its queue never runs empty.
fn traverse(symbol: &HallSymbol) -> Operations {
    nalgebra::products::allow(Some(MOST_ROTATIONS * symbol.generators.len() as u64));
    let list = symbol.traverse();
    nalgebra::products::allow(None);
    list
}

/// The count, then for each operation nine entries by rows and the bits of three doubles. Which bits a NaN has is the
/// processor's choice, so one pattern stands for all.
fn listed(list: &Operations) -> String {
    let mut line = list.len().to_string();
    for operation in list {
        show(&mut line, operation);
    }
    line
}

/// As `listed`, and 0 or 1 for the time reversal behind each operation.
fn listed_with_flags(list: &MagneticOperations) -> String {
    let mut line = list.len().to_string();
    for flagged in list {
        show(&mut line, &flagged.operation);
        write!(line, " {}", flagged.time_reversal as u8).unwrap();
    }
    line
}

fn show(line: &mut String, operation: &Operation) {
    for entry in operation.rotation_as_array().as_flattened() {
        write!(line, " {entry}").unwrap();
    }
    for part in operation.translation_as_array() {
        let shown = if part.is_nan() {
            f64::from_bits(0x7ff8 << 48)
        } else {
            part
        };
        write!(line, " {:016x}", shown.to_bits()).unwrap();
    }
}

/// The original's own symbols, each in hex on a line.
pub fn print_database() {
    for entry in (1..).map_while(hall_symbol_entry) {
        print_hex(entry.hall_symbol);
    }
}

/// The original's own layer symbols.
pub fn print_layer_database() {
    for entry in iter_layer_hall_symbol_entry() {
        print_hex(entry.hall_symbol);
    }
}

/// The original's own magnetic symbols, by UNI number.
pub fn print_magnetic_database() {
    for entry in (1..).map_while(magnetic_hall_symbol_entry) {
        print_hex(entry.magnetic_hall_symbol);
    }
}

fn print_hex(symbol: &str) {
    let hex: String = symbol.bytes().map(|byte| format!("{byte:02x}")).collect();
    println!("{hex}");
}
