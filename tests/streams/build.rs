// Adapts the original, metered for the limits of a call alone: units, nodes and aliases.
#[path = "../original/adapt.rs"]
mod adapt;
#[path = "../original/metered.rs"]
mod metered;

fn main() {
    adapt::adapt("metered.rs", metered::OPENED, &metered::limits());
}
