//! The commands on tables. Compiled inside `subgroup`, where the original's `FiniteGroup` is visible.

use std::fmt::Write;

use super::finite_group::FiniteGroup;
use crate::base::Operations;

/// `from_table` and everything that is known of the group: `none`, or the description. What follows the order is cut
/// into rows whatever its length, so that the original can be asked about rows that are missing, short or too many.
pub fn table(numbers: &[u64]) -> Option<String> {
    let (&order, entries) = numbers.split_first()?;
    if order > 64 || (order == 0 && !entries.is_empty()) {
        return None;
    }
    Some(
        match FiniteGroup::from_table(cut_into_rows(order as usize, entries)) {
            None => "none".to_string(),
            Some(group) => described(&group),
        },
    )
}

/// One set of elements in a table: its conjugate by each element in turn, then its normalizer's action.
pub fn set(numbers: &[u64]) -> Option<String> {
    let (rows, rest) = read_rows(numbers)?;
    let [set] = *rest else { return None };
    Some(match FiniteGroup::from_table(rows) {
        None => "none".to_string(),
        Some(group) => {
            let members = members(set);
            let mut line = "conjugates".to_string();
            for element in 0..group.order() {
                write!(line, " {}", set_text(&group.conjugate(&members, element))).unwrap();
            }
            write_normalizer(&mut line, group.normalizer_action(&members));
            line
        }
    })
}

/// One set's conjugate by one element; neither need lie inside the table.
pub fn conjugate(numbers: &[u64]) -> Option<String> {
    let (rows, rest) = read_rows(numbers)?;
    let [set, element] = *rest else { return None };
    Some(match FiniteGroup::from_table(rows) {
        None => "none".to_string(),
        Some(group) => set_text(&group.conjugate(&members(set), element as usize)),
    })
}

pub fn from_operations(list: &Operations, epsilon: f64) -> String {
    match FiniteGroup::from_operations(list, epsilon) {
        Err(error) => format!("error {error:?}"),
        Ok(group) => described(&group),
    }
}

/// The order, then its square's number of entries; what follows is handed back.
fn read_rows(numbers: &[u64]) -> Option<(Vec<Vec<usize>>, &[u64])> {
    let (&order, rest) = numbers.split_first()?;
    if order > 64 {
        return None;
    }
    let (entries, rest) = rest.split_at_checked((order * order) as usize)?;
    Some((cut_into_rows(order as usize, entries), rest))
}

fn cut_into_rows(order: usize, entries: &[u64]) -> Vec<Vec<usize>> {
    let row = |part: &[u64]| part.iter().map(|&entry| entry as usize).collect();
    entries.chunks(order.max(1)).map(row).collect()
}

fn described(group: &FiniteGroup) -> String {
    let subgroups = group.enumerate_subgroups();
    let classes = group.conjugacy_classes(&subgroups);
    let mut line = format!(
        "identity {} subgroups {}",
        group.identity(),
        subgroups.len()
    );
    for subgroup in &subgroups {
        write!(line, " {}", set_text(subgroup)).unwrap();
    }
    write!(line, " classes {}", classes.len()).unwrap();
    for class in classes {
        let representative = set_text(&class.representative);
        write!(
            line,
            " class {} conjugates {}",
            representative,
            class.conjugates.len()
        )
        .unwrap();
        for conjugate in &class.conjugates {
            let set = set_text(&conjugate.subgroup);
            write!(line, " {} {}", set, conjugate.conjugator_index).unwrap();
        }
        write_normalizer(
            &mut line,
            (class.normalizer_indices, class.normalizer_permutations),
        );
    }
    line
}

/// The number of elements, then each element with its permutation.
fn write_normalizer(line: &mut String, (elements, permutations): (Vec<usize>, Vec<Vec<usize>>)) {
    write!(line, " normalizer {}", elements.len()).unwrap();
    for (element, permutation) in elements.iter().zip(permutations) {
        write!(line, " {element}").unwrap();
        for position in permutation {
            write!(line, " {position}").unwrap();
        }
    }
}

fn members(set: u64) -> Vec<usize> {
    (0..64).filter(|i| set >> i & 1 == 1).collect()
}

/// A set as a number in hex, bit i for element i. A table that is no group's can make a "conjugate" with
/// repeats; the length then follows after a slash.
fn set_text(members: &[usize]) -> String {
    let bits = members.iter().fold(0u64, |bits, &i| bits | 1 << i);
    if bits.count_ones() as usize == members.len() {
        format!("{bits:x}")
    } else {
        format!("{bits:x}/{}", members.len())
    }
}
