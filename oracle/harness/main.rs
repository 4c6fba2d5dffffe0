//! The harness around the Rust original: one answer line for each input line.
//!
//! The modules below are the frame that the original's files expect around them. A module with a
//! body is ours; a module that ends in `;` inside it is a file of the original, copied here by
//! build.sh and not edited, or one of the harness files beside this one.

#![allow(dead_code)]

#[macro_use]
extern crate approx;

mod base {
    mod error;
    mod operation;

    mod lattice {
        /// Named by `Operation::cartesian_rotation`, which no command calls.
        pub struct Lattice {
            pub basis: nalgebra::Matrix3<f64>,
        }
    }

    mod tolerance {
        /// Used once, to leave (0, 0, 0) out of the centring points. Their other components are 1/3, 1/2
        /// and 2/3, so every value below 1/3 answers alike.
        pub const EPS: f64 = 1e-8;
    }

    mod transformation {
        //! Named by the functions for primitive cells, which no command calls.
        use super::operation::{MagneticOperations, Operations};

        pub type Linear = nalgebra::Matrix3<i32>;
        pub type OriginShift = nalgebra::Vector3<f64>;

        pub struct Transformation;

        impl Transformation {
            pub fn from_linear(_linear: Linear) -> Self {
                unimplemented!("no command needs a primitive cell")
            }
            pub fn inverse_transform_operations(&self, _list: &Operations) -> Operations {
                unimplemented!("no command needs a primitive cell")
            }
            pub fn inverse_transform_magnetic_operations(
                &self,
                _list: &MagneticOperations,
            ) -> MagneticOperations {
                unimplemented!("no command needs a primitive cell")
            }
        }
    }

    pub use error::MoyoError;
    pub use operation::{
        MagneticOperation, MagneticOperations, Operation, Operations, Rotation, TimeReversal,
        Translation,
    };
    pub use tolerance::EPS;
    pub use transformation::{Linear, OriginShift, Transformation};
}

mod data {
    pub mod centering;
    pub mod hall_symbol;
    pub mod hall_symbol_database;

    pub mod arithmetic_crystal_class {
        pub type ArithmeticNumber = i32;
    }

    pub mod layer {
        pub mod layer_centering;
        pub mod layer_hall_symbol_database;

        pub mod layer_arithmetic_crystal_class {
            pub type LayerArithmeticNumber = i32;
        }
    }

    pub mod magnetic {
        pub mod magnetic_hall_symbol_database;

        pub mod magnetic_space_group {
            //! What the magnetic database names besides its own text; no command looks a type up.
            pub type UNINumber = i32;
            pub const NUM_MAGNETIC_SPACE_GROUP_TYPES: usize = 1651;

            #[derive(Clone, Copy)]
            pub struct ConstructType;

            pub struct MagneticSpaceGroupType {
                pub number: i32,
                pub construct_type: ConstructType,
            }

            pub fn get_magnetic_space_group_type(_: UNINumber) -> Option<MagneticSpaceGroupType> {
                unimplemented!("no command looks up a magnetic type")
            }
        }
    }

    pub mod setting {
        pub enum Setting {
            Standard,
        }

        impl Setting {
            pub fn hall_number(&self, _number: i32) -> Option<i32> {
                unimplemented!("no command looks up a setting")
            }
        }
    }
}

mod identify {
    pub mod rotation_type;
}

/// `finite_group` shows its items to this module and to what lies inside it, so the commands on
/// tables live here.
mod subgroup {
    mod finite_group;
    #[cfg(measured)]
    pub mod measured;
    pub mod tables;
}

mod symbols;
mod utils;

use std::cell::RefCell;
use std::io::{BufRead, Write};
use std::panic::{AssertUnwindSafe, catch_unwind, set_hook};

thread_local! {
    /// Where the last panic of the original happened: file name and line.
    static PANIC_PLACE: RefCell<String> = const { RefCell::new(String::new()) };
}

fn answer(line: &str) -> Option<String> {
    let (command, arguments) = line.split_once(' ')?;
    match command {
        "operations" => symbols::answer(arguments, symbols::operations),
        "layer" => symbols::answer(arguments, symbols::layer_operations),
        "magnetic" => symbols::answer(arguments, symbols::magnetic_operations),
        "magnetic_generators" => symbols::answer(arguments, symbols::magnetic_generators),
        "generators" => symbols::answer(arguments, symbols::generators),
        "from_operations" => {
            let (hex, epsilon) = arguments.split_once(' ')?;
            let epsilon = epsilon.parse().ok()?;
            symbols::answer(hex, |text| symbols::from_operations(text, epsilon))
        }
        "table" => subgroup::tables::table(&numbers(arguments)?),
        "set" => subgroup::tables::set(&numbers(arguments)?),
        "conjugate" => subgroup::tables::conjugate(&numbers(arguments)?),
        "type" => rotation_type(arguments),
        _ => None,
    }
}

/// Whole numbers in decimal, separated by single spaces.
fn numbers(text: &str) -> Option<Vec<u64>> {
    text.split(' ').map(|word| word.parse().ok()).collect()
}

/// The type's position in the original's enum, from 0.
fn rotation_type(text: &str) -> Option<String> {
    let e: Vec<i32> = text
        .split(' ')
        .map(|word| word.parse().ok())
        .collect::<Option<_>>()?;
    let [a, b, c, d, e, f, g, h, i] = e.try_into().ok()?;
    let rotation = base::Rotation::new(a, b, c, d, e, f, g, h, i);
    Some((identify::rotation_type::identify_rotation_type(&rotation) as usize).to_string())
}

fn guarded(line: &str) -> String {
    match catch_unwind(AssertUnwindSafe(|| answer(line))) {
        Ok(text) => text.unwrap_or_else(|| "what".to_string()),
        Err(payload) => {
            nalgebra::products::allow(None);
            if payload.is::<nalgebra::products::UsedUp>() {
                "endless".to_string()
            } else {
                format!("panic {}", PANIC_PLACE.take())
            }
        }
    }
}

fn main() {
    match std::env::args().nth(1).as_deref() {
        Some("database") => return symbols::print_database(),
        Some("layers") => return symbols::print_layer_database(),
        Some("magnetics") => return symbols::print_magnetic_database(),
        _ => {}
    }
    set_hook(Box::new(|panic| {
        if let Some(place) = panic.location() {
            let file = place.file().rsplit('/').next().unwrap_or("");
            PANIC_PLACE.set(format!("{} {}", file, place.line()));
        }
    }));
    let mut out = std::io::stdout().lock();
    for line in std::io::stdin().lock().lines() {
        let Ok(line) = line else { return };
        // One write a line, so that the harness can also be driven through a pipe.
        if writeln!(out, "{}", guarded(&line))
            .and_then(|()| out.flush())
            .is_err()
        {
            return;
        }
    }
}
