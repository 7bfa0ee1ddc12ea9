//! Stands for the crate `nalgebra`: the few matrix types in use, with the product and the inverse that
//! the port defines. A product's entry sums its terms left to right by inner index, starting with the
//! first term, each product rounded before its sum. The inverse is Gauss-Jordan without row exchange.
use std::ops::{Add, AddAssign, Index, IndexMut, Mul, Sub};

/// A matrix of R rows and C columns, row after row.
#[derive(Debug, Clone, Copy, PartialEq, Eq)]
pub struct SMatrix<T, const R: usize, const C: usize>([[T; C]; R]);

pub type Matrix1x4<T> = SMatrix<T, 1, 4>;

impl<T> SMatrix<T, 1, 4> {
    pub fn new(a: T, b: T, c: T, d: T) -> Self {
        Self([[a, b, c, d]])
    }
}

impl<T> SMatrix<T, 4, 1> {
    pub fn new(a: T, b: T, c: T, d: T) -> Self {
        Self([[a], [b], [c], [d]])
    }
}

impl<const R: usize, const C: usize> SMatrix<f32, R, C> {
    fn by(entry: impl Fn(usize, usize) -> f32) -> Self {
        Self(std::array::from_fn(|i| std::array::from_fn(|j| entry(i, j))))
    }
    pub fn zeros() -> Self {
        Self([[0.0; C]; R])
    }
    pub fn from_row_slice(entries: &[f32]) -> Self {
        assert_eq!(entries.len(), R * C);
        Self::by(|i, j| entries[i * C + j])
    }
    pub fn from_column_slice(entries: &[f32]) -> Self {
        assert_eq!(entries.len(), R * C);
        Self::by(|i, j| entries[j * R + i])
    }
    pub fn transpose(&self) -> SMatrix<f32, C, R> {
        SMatrix::by(|i, j| self.0[j][i])
    }
    /// The entries row after row.
    pub fn rows(&self) -> Vec<f32> {
        self.0.concat()
    }
}

impl<const N: usize> SMatrix<f32, N, N> {
    pub fn identity() -> Self {
        Self::by(|i, j| if i == j { 1.0 } else { 0.0 })
    }
    pub fn from_diagonal(diagonal: &SMatrix<f32, N, 1>) -> Self {
        Self::by(|i, j| if i == j { diagonal.0[i][0] } else { 0.0 })
    }

    /// Columns in order: a pivot equal to 0 or NaN means none. The pivot's row is divided by the pivot; then
    /// each other row loses the pivot's row times its own old entry in that column.
    pub fn try_inverse(self) -> Option<Self> {
        let mut left = self.0;
        let mut right = Self::identity().0;
        for k in 0..N {
            let pivot = left[k][k];
            if pivot == 0.0 || pivot.is_nan() {
                return None;
            }
            for j in 0..N {
                left[k][j] /= pivot;
                right[k][j] /= pivot;
            }
            for i in (0..N).filter(|&i| i != k) {
                let old = left[i][k];
                for j in 0..N {
                    left[i][j] -= old * left[k][j];
                    right[i][j] -= old * right[k][j];
                }
            }
        }
        Some(Self(right))
    }
}

impl<const R: usize, const K: usize, const C: usize> Mul<SMatrix<f32, K, C>> for SMatrix<f32, R, K> {
    type Output = SMatrix<f32, R, C>;
    fn mul(self, other: SMatrix<f32, K, C>) -> SMatrix<f32, R, C> {
        SMatrix::by(|i, j| {
            let mut sum = self.0[i][0] * other.0[0][j];
            for k in 1..K {
                sum += self.0[i][k] * other.0[k][j];
            }
            sum
        })
    }
}

impl<const R: usize, const C: usize> Add for SMatrix<f32, R, C> {
    type Output = Self;
    fn add(self, other: Self) -> Self {
        Self::by(|i, j| self.0[i][j] + other.0[i][j])
    }
}

impl<const R: usize, const C: usize> AddAssign for SMatrix<f32, R, C> {
    fn add_assign(&mut self, other: Self) {
        *self = *self + other;
    }
}

impl<const R: usize, const C: usize> Sub for SMatrix<f32, R, C> {
    type Output = Self;
    fn sub(self, other: Self) -> Self {
        Self::by(|i, j| self.0[i][j] - other.0[i][j])
    }
}

impl<const R: usize, const C: usize> Sub<SMatrix<f32, R, C>> for &SMatrix<f32, R, C> {
    type Output = SMatrix<f32, R, C>;
    fn sub(self, other: SMatrix<f32, R, C>) -> SMatrix<f32, R, C> {
        *self - other
    }
}

impl<T, const R: usize, const C: usize> Index<(usize, usize)> for SMatrix<T, R, C> {
    type Output = T;
    fn index(&self, (i, j): (usize, usize)) -> &T {
        &self.0[i][j]
    }
}

impl<T, const R: usize, const C: usize> IndexMut<(usize, usize)> for SMatrix<T, R, C> {
    fn index_mut(&mut self, (i, j): (usize, usize)) -> &mut T {
        &mut self.0[i][j]
    }
}

/// The entry of a column vector.
impl<T, const R: usize> Index<usize> for SMatrix<T, R, 1> {
    type Output = T;
    fn index(&self, i: usize) -> &T {
        &self.0[i][0]
    }
}

impl<T, const R: usize> IndexMut<usize> for SMatrix<T, R, 1> {
    fn index_mut(&mut self, i: usize) -> &mut T {
        &mut self.0[i][0]
    }
}

/// A matrix whose size is known when it is made.
#[derive(Debug, Clone)]
pub struct DMatrix<T> {
    rows: usize,
    columns: usize,
    entries: Vec<T>,
}

impl<T: Clone> DMatrix<T> {
    pub fn from_element(rows: usize, columns: usize, entry: T) -> Self {
        Self { rows, columns, entries: vec![entry; rows * columns] }
    }
    pub fn nrows(&self) -> usize {
        self.rows
    }
    pub fn ncols(&self) -> usize {
        self.columns
    }
}

impl DMatrix<f32> {
    pub fn zeros(rows: usize, columns: usize) -> Self {
        Self::from_element(rows, columns, 0.0)
    }
    /// The largest entry, 0 if there is none. It is asked only of overlaps, which are never NaN.
    pub fn max(&self) -> f32 {
        let first = self.entries.first().copied().unwrap_or(0.0);
        self.entries.iter().fold(first, |a, &b| if a >= b { a } else { b })
    }
}

impl Add for &DMatrix<f32> {
    type Output = DMatrix<f32>;
    fn add(self, other: &DMatrix<f32>) -> DMatrix<f32> {
        assert_eq!((self.rows, self.columns), (other.rows, other.columns));
        let entries = self.entries.iter().zip(&other.entries).map(|(a, b)| a + b).collect();
        DMatrix { entries, ..*self }
    }
}

impl<T> Index<(usize, usize)> for DMatrix<T> {
    type Output = T;
    fn index(&self, (i, j): (usize, usize)) -> &T {
        assert!(j < self.columns);
        &self.entries[i * self.columns + j]
    }
}

impl<T> IndexMut<(usize, usize)> for DMatrix<T> {
    fn index_mut(&mut self, (i, j): (usize, usize)) -> &mut T {
        assert!(j < self.columns);
        &mut self.entries[i * self.columns + j]
    }
}
