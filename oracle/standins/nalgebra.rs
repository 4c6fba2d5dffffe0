//! Stand-in for the part of nalgebra that the Rust files name: 3-vectors and 3x3 matrices.
//!
//! A product of doubles may round, so the order of additions is kept: nalgebra multiplies
//! matrices of these sizes column by column, starting from the first column's share and adding the
//! second and the third to it. Built with `--cfg reversed` the shares are added from the last
//! column to the first, to show that no answer hangs on the order.

use std::fmt::Debug;
use std::hash::{Hash, Hasher};
use std::ops::{Add, AddAssign, Index, Mul, MulAssign, Neg, Sub};

pub mod base {
    pub use crate::{Matrix3, Vector3};
}

/// Counts products of two matrices, so that a walk over an infinite group can be stopped.
pub mod products {
    use std::cell::Cell;

    /// What the panic carries when the allowed products are used up.
    pub struct UsedUp;

    thread_local! {
        static LEFT: Cell<Option<u64>> = const { Cell::new(None) };
    }

    /// Allows this many products from now on; `None` lifts the limit.
    pub fn allow(limit: Option<u64>) {
        LEFT.set(limit);
    }

    pub(crate) fn count_one() {
        // What is measured is the original's own work.
        if cfg!(measured) {
            return;
        }
        match LEFT.get() {
            None => {}
            Some(0) => std::panic::panic_any(UsedUp),
            Some(left) => LEFT.set(Some(left - 1)),
        }
    }
}

/// The name is all that utils.rs needs of it.
pub trait Scalar: Clone + PartialEq + Debug + 'static {}
impl Scalar for i32 {}
impl Scalar for f64 {}

/// The two kinds of entries in use.
pub trait Entry:
    Scalar + Copy + Add<Output = Self> + Sub<Output = Self> + Mul<Output = Self> + Neg<Output = Self>
{
    const NIL: Self;
    const UNIT: Self;
}
impl Entry for i32 {
    const NIL: i32 = 0;
    const UNIT: i32 = 1;
}
impl Entry for f64 {
    const NIL: f64 = 0.0;
    const UNIT: f64 = 1.0;
}

#[derive(Clone, Copy, PartialEq, Debug)]
pub struct Vector3<T> {
    parts: [T; 3],
}

/// Kept by columns, as nalgebra keeps it. Nothing that is asked of it here can tell, but the calls are also measured.
#[derive(Clone, Copy, PartialEq, Eq, Debug)]
pub struct Matrix3<T> {
    columns: [[T; 3]; 3],
}

impl<T> Vector3<T> {
    pub const fn new(x: T, y: T, z: T) -> Self {
        Vector3 { parts: [x, y, z] }
    }

    pub fn iter(&self) -> impl Iterator<Item = &T> {
        self.parts.iter()
    }
}

impl<T: Copy> Vector3<T> {
    pub fn map<U>(&self, change: impl FnMut(T) -> U) -> Vector3<U> {
        Vector3 {
            parts: self.parts.map(change),
        }
    }
}

impl<T: Entry> Vector3<T> {
    pub fn zeros() -> Self {
        Vector3 { parts: [T::NIL; 3] }
    }

    fn pairwise(self, other: Self, join: impl Fn(T, T) -> T) -> Self {
        Vector3 {
            parts: std::array::from_fn(|i| join(self.parts[i], other.parts[i])),
        }
    }
}

impl<T> Index<usize> for Vector3<T> {
    type Output = T;
    fn index(&self, i: usize) -> &T {
        &self.parts[i]
    }
}

impl<T: Entry> Add for Vector3<T> {
    type Output = Self;
    fn add(self, other: Self) -> Self {
        self.pairwise(other, |a, b| a + b)
    }
}

impl<T: Entry> Sub for Vector3<T> {
    type Output = Self;
    fn sub(self, other: Self) -> Self {
        self.pairwise(other, |a, b| a - b)
    }
}

impl<T: Entry> AddAssign for Vector3<T> {
    fn add_assign(&mut self, other: Self) {
        *self = *self + other;
    }
}

impl Mul<Vector3<f64>> for f64 {
    type Output = Vector3<f64>;
    fn mul(self, vector: Vector3<f64>) -> Vector3<f64> {
        vector.map(|part| self * part)
    }
}

impl<T> Matrix3<T> {
    /// Entries by rows, as nalgebra's `new` takes them.
    #[allow(clippy::too_many_arguments)]
    pub fn new(a: T, b: T, c: T, d: T, e: T, f: T, g: T, h: T, i: T) -> Self {
        Matrix3 {
            columns: [[a, d, g], [b, e, h], [c, f, i]],
        }
    }
}

impl<T: Copy> Matrix3<T> {
    pub fn from_columns(columns: &[Vector3<T>; 3]) -> Self {
        Matrix3 {
            columns: std::array::from_fn(|j| columns[j].parts),
        }
    }

    pub fn map<U>(&self, mut change: impl FnMut(T) -> U) -> Matrix3<U> {
        Matrix3 {
            columns: self.columns.map(|column| column.map(&mut change)),
        }
    }
}

impl<T: Entry> Matrix3<T> {
    pub fn identity() -> Self {
        Matrix3 {
            columns: std::array::from_fn(|j| {
                std::array::from_fn(|i| if i == j { T::UNIT } else { T::NIL })
            }),
        }
    }

    pub fn zeros() -> Self {
        Matrix3 {
            columns: [[T::NIL; 3]; 3],
        }
    }

    pub fn trace(&self) -> T {
        T::NIL + self.columns[0][0] + self.columns[1][1] + self.columns[2][2]
    }

    /// Along the first row, as nalgebra does for three rows.
    pub fn determinant(&self) -> T {
        let [[a, d, g], [b, e, h], [c, f, i]] = self.columns;
        a * (e * i - h * f) - b * (d * i - g * f) + c * (d * h - g * e)
    }

    /// This matrix on one column: the shares of its columns, added one after another.
    fn on_column(&self, x: [T; 3]) -> [T; 3] {
        let order = if cfg!(reversed) { [2, 1, 0] } else { [0, 1, 2] };
        let mut sum = [T::NIL; 3];
        for i in 0..3 {
            sum[i] = self.columns[order[0]][i] * x[order[0]];
        }
        for j in [order[1], order[2]] {
            for i in 0..3 {
                sum[i] = self.columns[j][i] * x[j] + sum[i];
            }
        }
        sum
    }
}

impl Matrix3<f64> {
    /// Named only inside functions that no command reaches.
    pub fn try_inverse(self) -> Option<Self> {
        unimplemented!("no command needs an inverse matrix")
    }
}

/// The numbers of rows and columns, then entry by entry, as nalgebra is believed to do it.
impl<T: Hash> Hash for Matrix3<T> {
    fn hash<H: Hasher>(&self, state: &mut H) {
        (3usize, 3usize).hash(state);
        for column in &self.columns {
            for entry in column {
                entry.hash(state);
            }
        }
    }
}

impl<T> Index<(usize, usize)> for Matrix3<T> {
    type Output = T;
    fn index(&self, (i, j): (usize, usize)) -> &T {
        &self.columns[j][i]
    }
}

impl<T: Entry> Neg for Matrix3<T> {
    type Output = Self;
    fn neg(self) -> Self {
        self.map(|entry| -entry)
    }
}

impl<T: Entry> MulAssign<T> for Matrix3<T> {
    fn mul_assign(&mut self, factor: T) {
        *self = self.map(|entry| entry * factor);
    }
}

impl<T: Entry> Mul for Matrix3<T> {
    type Output = Self;
    fn mul(self, other: Self) -> Self {
        products::count_one();
        let [x, y, z] = other.columns;
        Matrix3 {
            columns: [self.on_column(x), self.on_column(y), self.on_column(z)],
        }
    }
}

impl<T: Entry> Mul<&Matrix3<T>> for Matrix3<T> {
    type Output = Self;
    fn mul(self, other: &Self) -> Self {
        self * *other
    }
}

impl<T: Entry> Mul<Vector3<T>> for Matrix3<T> {
    type Output = Vector3<T>;
    fn mul(self, vector: Vector3<T>) -> Vector3<T> {
        Vector3 {
            parts: self.on_column(vector.parts),
        }
    }
}

/// A matrix written out row by row.
#[macro_export]
macro_rules! matrix {
    ($($a:expr),+; $($b:expr),+; $($c:expr),+ $(;)?) => {
        $crate::Matrix3::new($($a,)+ $($b,)+ $($c),+)
    };
}
