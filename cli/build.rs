//! Links the proved library.

include!("../native/link.rs");

fn main() {
    link_library();
}
