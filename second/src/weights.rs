//! Weights of interpolation, found by solving the Vandermonde system modulo q:
//! for points x_1..x_m and a target x, the scalars w with
//! sum w_i x_i^k = x^k for k from 0 to m-1. Written from document 01 alone.

use crate::arith::{Element, Scalar};
use std::cell::RefCell;
use std::collections::HashMap;
use std::rc::Rc;

/// Points and a target.
type Place = (Vec<Scalar>, Scalar);

/// The weights already found, by points and target.
#[derive(Clone, Debug, Default)]
pub struct WeightTable {
    known: RefCell<HashMap<Place, Rc<Vec<Scalar>>>>,
}

impl WeightTable {
    /// Finds the weights of distinct points at several targets in one go.
    pub fn prepare(&self, points: &[Scalar], targets: &[Scalar]) {
        let solved = solve_weights_at(points, targets);
        for (&target, weights) in targets.iter().zip(solved) {
            self.known.borrow_mut().insert((points.to_vec(), target), Rc::new(weights));
        }
    }

    /// The weights of distinct points at a target.
    pub fn weights(&self, points: &[Scalar], target: Scalar) -> Rc<Vec<Scalar>> {
        let place = (points.to_vec(), target);
        let mut known = self.known.borrow_mut();
        let found = known.entry(place).or_insert_with(|| Rc::new(solve_weights(points, target)));
        Rc::clone(found)
    }

    /// The value at the target of the polynomial with these values at these points.
    pub fn scalar_at(&self, points: &[Scalar], values: &[Scalar], target: Scalar) -> Scalar {
        assert_eq!(points.len(), values.len());
        let weights = self.weights(points, target);
        let terms = weights.iter().zip(values).map(|(&weight, &value)| weight * value);
        terms.fold(Scalar::ZERO, |sum, term| sum + term)
    }

    /// The same for values given as elements.
    pub fn element_at(&self, points: &[Scalar], values: &[Element], target: Scalar) -> Element {
        assert_eq!(points.len(), values.len());
        let weights = self.weights(points, target);
        let factors = weights.iter().zip(values).map(|(&weight, &value)| value.power(weight));
        factors.fold(Element::ONE, |product, factor| product * factor)
    }
}

/// The weights of distinct points at a target.
pub fn solve_weights(points: &[Scalar], target: Scalar) -> Vec<Scalar> {
    solve_weights_at(points, &[target]).concat()
}

/// The weights of distinct points at each target, by Gaussian elimination.
fn solve_weights_at(points: &[Scalar], targets: &[Scalar]) -> Vec<Vec<Scalar>> {
    let mut rows = vandermonde_rows(points, targets);
    for column in 0..points.len() {
        bring_pivot(&mut rows, column);
        clear_column(&mut rows, column);
    }
    let column = |place: usize| rows.iter().map(|row| row[points.len() + place]).collect();
    (0..targets.len()).map(column).collect()
}

/// Row k holds the k-th powers of the points and, last, of the targets.
fn vandermonde_rows(points: &[Scalar], targets: &[Scalar]) -> Vec<Vec<Scalar>> {
    let row = |k: usize| {
        let powers = points.iter().chain(targets).map(|x| x.power(k as u32));
        powers.collect()
    };
    (0..points.len()).map(row).collect()
}

/// Puts a row whose entry in the column is not 0 in place, scaled to 1 there.
fn bring_pivot(rows: &mut [Vec<Scalar>], column: usize) {
    let pivot = (column..rows.len()).find(|&r| rows[r][column] != Scalar::ZERO);
    rows.swap(column, pivot.expect("the points are distinct"));
    let scale = rows[column][column].inverse();
    for entry in &mut rows[column] {
        *entry = *entry * scale;
    }
}

/// Takes the pivot row away from every other row until the column is 0 there.
fn clear_column(rows: &mut [Vec<Scalar>], column: usize) {
    let pivot_row = rows[column].clone();
    for (index, row) in rows.iter_mut().enumerate() {
        if index != column {
            let factor = row[column];
            subtract_multiple(row, &pivot_row, factor);
        }
    }
}

/// row - factor × other, entry by entry.
fn subtract_multiple(row: &mut [Scalar], other: &[Scalar], factor: Scalar) {
    for (entry, &taken) in row.iter_mut().zip(other) {
        *entry = *entry - factor * taken;
    }
}
