//! The chunks of a real compiler, from the folder samples/.

use super::fixed::Fixed;

macro_rules! samples {
    ($($name:literal)*) => {
        [$(($name, &include_bytes!(concat!("../../../samples/", $name, ".rdef"))[..])),*]
    };
}

/// Each of them reads.
pub fn all() -> Vec<Fixed> {
    let samples = samples![
        "empty.4" "empty.5" "globals.4" "globals.5" "many.4" "many.5" "nested.4" "nested.5"
        "surtitle.4" "surtitle.5" "two_screens.4" "two_screens.5" "vertex.4" "vertex.5"
    ];
    samples.into_iter().map(|(name, bytes)| Fixed::new(name, bytes.to_vec(), 0)).collect()
}
