// Document 01's own rules: powers and clamps.
#![allow(dead_code)]

pub fn power(base: f64, exponent: u32) -> f64 {
    power_by(base, exponent, |value| value)
}

// Each product and each square is a step.
pub fn power_by(base: f64, exponent: u32, step: impl Fn(f64) -> f64) -> f64 {
    let mut result = 1.0;
    let mut square = base;
    let mut digits = exponent;
    while digits > 0 {
        if digits & 1 == 1 {
            result = step(result * square);
        }
        digits >>= 1;
        if digits > 0 {
            square = step(square * square);
        }
    }
    result
}

pub fn at_least(current: f64, min: f64) -> f64 {
    if current < min { min } else { current }
}

pub fn at_most(current: f64, max: f64) -> f64 {
    if current > max { max } else { current }
}
