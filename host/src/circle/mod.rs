//! Points of the circle, and their indices.

mod index;
mod point;

pub use index::CirclePointIndex;
pub use point::{
    CircleField, CirclePoint, M31_CIRCLE_GEN, M31_CIRCLE_LOG_ORDER, SECURE_FIELD_CIRCLE_GEN, SECURE_FIELD_CIRCLE_ORDER,
};
