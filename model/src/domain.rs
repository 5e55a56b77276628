//! The domains, as slices of one list of powers (document 01, "Domains"). Their points
//! are numbers below p, also where elements have four words.

use crate::elements::Elements;
use crate::field::Field;
use crate::sheet::Sheet;

/// All powers of ω in order; every point of every domain is one of them.
pub struct Subgroup {
    pub field: Field,
    powers: Vec<u64>,
}

impl Subgroup {
    /// ω^0 to ω^(n0 - 1), each the one before times ω.
    pub fn new(field: Field, n0: usize) -> Self {
        let omega = field.pow(field.g, (field.p - 1) / n0 as u64);
        let powers = std::iter::successors(Some(1), |&power| Some(field.mul(power, omega)))
            .take(n0)
            .collect();
        Subgroup { field, powers }
    }

    pub fn of(sheet: &Sheet) -> Self {
        Subgroup::new(sheet.field, sheet.n0)
    }

    /// n_i.
    pub fn size(&self, i: usize) -> usize {
        self.powers.len() >> i
    }

    /// Point j of domain i, that is ω^(1 + 2^i·j).
    pub fn point(&self, i: usize, j: usize) -> u64 {
        self.powers[(1 + (j << i)) % self.powers.len()]
    }

    /// All points of domain i in order.
    pub fn domain(&self, i: usize) -> Vec<u64> {
        (0..self.size(i)).map(|j| self.point(i, j)).collect()
    }

    /// The shift point of index j over domain i: point j multiplied by itself, k times in all.
    pub fn shift_point(&self, i: usize, k: usize, j: usize) -> u64 {
        let point = self.point(i, j);
        (1..k).fold(point, |power, _| self.field.mul(power, point))
    }

    /// The places in domain i of the k roots of shift point j.
    pub fn root_places(&self, i: usize, k: usize, j: usize) -> impl Iterator<Item = usize> {
        let stride = self.size(i) / k;
        (0..k).map(move |m| j + m * stride)
    }

    /// A polynomial's table over domain i, as a plain sum for each point: x^l for
    /// x = ω^a is the (a·l)-th power in the list.
    pub fn table<F: Elements>(
        &self,
        field: F,
        i: usize,
        coefficients: &[F::Element],
    ) -> Vec<F::Element> {
        let n0 = self.powers.len();
        let value = |j: usize| {
            let exponent = 1 + (j << i);
            let terms = coefficients.iter().enumerate();
            field.weighted(terms.map(|(l, &c)| (c, self.powers[exponent * l % n0])))
        };
        (0..self.size(i)).map(value).collect()
    }
}
