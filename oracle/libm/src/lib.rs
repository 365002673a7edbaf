//! The mathematical functions that the source calls, from the standard library.

pub fn sin(x: f64) -> f64 {
    x.sin()
}

pub fn cos(x: f64) -> f64 {
    x.cos()
}

pub fn pow(x: f64, y: f64) -> f64 {
    x.powf(y)
}

pub fn powf(x: f32, y: f32) -> f32 {
    x.powf(y)
}

pub fn log10f(x: f32) -> f32 {
    x.log10()
}

/// To nearest, halves away from zero.
pub fn roundf(x: f32) -> f32 {
    x.round()
}
