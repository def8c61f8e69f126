//! Stands in for the hexagonal family, which no decoder touches.

super::square::nothing_of!(Hex, Hex, 6);

pub const HEX_AXIAL_OFFSETS: [super::Coord; 6] = [super::Coord::new(0, 0); 6];
pub const D6_TRANSFORMS: [super::GridTransform; 12] = [super::GridTransform::identity(super::LatticeKind::Hex); 12];
