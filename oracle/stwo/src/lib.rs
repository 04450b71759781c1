//! The eight files of stwo, compiled unchanged where they lie, and glue for what is missing around them.

// The sources' own warnings aren't ours to mend; the second lint objects to their exported macros coming by `include!`.
#![allow(warnings, macro_expanded_macro_exports_accessed_by_absolute_paths)]

pub mod core {
    include!(concat!(env!("OUT_DIR"), "/core.rs"));

    pub mod channel {
        pub trait Channel {
            fn draw_secure_felt(&mut self) -> super::fields::qm31::SecureField;
        }
    }

    pub mod poly {
        pub mod circle {
            include!(concat!(env!("OUT_DIR"), "/poly_circle.rs"));

            pub use canonic::CanonicCoset;
            pub use domain::{CircleDomain, MIN_CIRCLE_DOMAIN_LOG_SIZE};
        }
    }
}

/// The function of `utils.rs` that stwo keeps to itself.
pub fn circle_domain_order_to_coset_order(
    values: &[crate::core::fields::m31::BaseField],
) -> Vec<crate::core::fields::m31::BaseField> {
    crate::core::utils::circle_domain_order_to_coset_order(values)
}
