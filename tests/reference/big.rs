//! Natural numbers of any size, for exact comparisons.

use std::cmp::Ordering;

/// A natural number; the lowest limb is first and the last one is never zero.
#[derive(Clone, PartialEq, Eq)]
pub struct Natural {
    limbs: Vec<u64>,
}

impl Natural {
    /// The number with these limbs, any zeros at the top dropped.
    fn trimmed(mut limbs: Vec<u64>) -> Natural {
        while limbs.last() == Some(&0) {
            limbs.pop();
        }
        Natural { limbs }
    }

    /// The sum.
    pub fn add(&self, other: &Natural) -> Natural {
        let length = self.limbs.len().max(other.limbs.len());
        let mut limbs = Vec::with_capacity(length + 1);
        let mut carry = 0;
        for i in 0..length {
            let left = u128::from(*self.limbs.get(i).unwrap_or(&0));
            let right = u128::from(*other.limbs.get(i).unwrap_or(&0));
            let sum = left + right + carry;
            limbs.push(sum as u64);
            carry = sum >> 64;
        }
        limbs.push(carry as u64);
        Natural::trimmed(limbs)
    }

    /// The product with one limb.
    pub fn times(&self, factor: u64) -> Natural {
        let mut limbs = Vec::with_capacity(self.limbs.len() + 1);
        let mut carry = 0;
        for &limb in &self.limbs {
            let product = u128::from(limb) * u128::from(factor) + carry;
            limbs.push(product as u64);
            carry = product >> 64;
        }
        limbs.push(carry as u64);
        Natural::trimmed(limbs)
    }

    /// The product.
    pub fn mul(&self, other: &Natural) -> Natural {
        let mut limbs = vec![0; self.limbs.len() + other.limbs.len()];
        for (i, &left) in self.limbs.iter().enumerate() {
            let mut carry = 0;
            for (j, &right) in other.limbs.iter().enumerate() {
                let sum = u128::from(left) * u128::from(right) + u128::from(limbs[i + j]) + carry;
                limbs[i + j] = sum as u64;
                carry = sum >> 64;
            }
            limbs[i + other.limbs.len()] = carry as u64;
        }
        Natural::trimmed(limbs)
    }

    /// The product with 2^bits.
    pub fn shift_left(&self, bits: u64) -> Natural {
        let mut limbs = vec![0; (bits / 64) as usize];
        limbs.extend(&self.times(1 << (bits % 64)).limbs);
        Natural::trimmed(limbs)
    }

    /// The whole part of the quotient with 2^bits; None where 64 bits do not hold it.
    pub fn whole_part(&self, bits: u64) -> Option<u64> {
        let kept = self.limbs.get((bits / 64) as usize..).unwrap_or(&[]);
        let limb = |i: usize| u128::from(*kept.get(i).unwrap_or(&0));
        let quotient = ((limb(1) << 64) + limb(0)) >> (bits % 64);
        u64::try_from(quotient).ok().filter(|_| kept.len() <= 2)
    }

    /// The power.
    pub fn pow(&self, exponent: u64) -> Natural {
        let mut power = Natural::from(1);
        for place in (0..64).rev() {
            power = power.mul(&power);
            if exponent >> place & 1 == 1 {
                power = power.mul(self);
            }
        }
        power
    }
}

impl From<u128> for Natural {
    /// The number itself.
    fn from(number: u128) -> Natural {
        Natural::trimmed(vec![number as u64, (number >> 64) as u64])
    }
}

impl Ord for Natural {
    /// More limbs are more; else the highest limb that differs decides.
    fn cmp(&self, other: &Natural) -> Ordering {
        let lengths = self.limbs.len().cmp(&other.limbs.len());
        lengths.then_with(|| self.limbs.iter().rev().cmp(other.limbs.iter().rev()))
    }
}

impl PartialOrd for Natural {
    /// As the total order.
    fn partial_cmp(&self, other: &Natural) -> Option<Ordering> {
        Some(self.cmp(other))
    }
}
