// Adapts the original, with a way in to its private functions.
#[path = "../original/adapt.rs"]
mod adapt;

const OPENED: &str = "
pub mod opened {
    use super::{Range, ScalarType};

    pub fn type_range(ty: ScalarType) -> Option<Range> {
        super::type_range(ty)
    }

    pub fn add(a: Range, b: Range) -> Option<Range> {
        a.add(b)
    }

    pub fn sub(a: Range, b: Range) -> Option<Range> {
        a.sub(b)
    }

    pub fn mul(a: Range, b: Range) -> Option<Range> {
        a.mul(b)
    }
}
";

fn main() {
    adapt::adapt("native.rs", OPENED, &[]);
}
