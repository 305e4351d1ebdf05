//! Ways of bracketing a list of tables: which are joined first, down to the
//! tables themselves.

use crate::generate::random::Random;

/// A table of the list by itself, or two parts of the list joined.
#[derive(Clone, PartialEq, Eq, Debug)]
pub enum Bracketing {
    One(usize),
    Two(Box<Bracketing>, Box<Bracketing>),
}

impl Bracketing {
    /// Any one of so many tables, of which this is the first.
    pub fn any(r: &mut Random, first: usize, count: usize) -> Bracketing {
        if count == 1 {
            return Bracketing::One(first);
        }
        let left = r.between(1, count as u32 - 1) as usize;
        Bracketing::Two(
            Box::new(Bracketing::any(r, first, left)),
            Box::new(Bracketing::any(r, first + left, count - left)),
        )
    }

    /// What the list is joined to this way, by this join, which is told of
    /// every two that it joins; or the first refusal.
    pub fn joined<E>(
        &self,
        tables: &[Vec<u8>],
        join: &mut impl FnMut(&[u8], &[u8]) -> Result<Vec<u8>, E>,
    ) -> Result<Vec<u8>, E> {
        match self {
            Bracketing::One(at) => Ok(tables[*at].clone()),
            Bracketing::Two(left, right) => {
                let (a, b) = (left.joined(tables, join)?, right.joined(tables, join)?);
                join(&a, &b)
            }
        }
    }
}
