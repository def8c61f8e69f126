//! Stands in for the square family. Decoders take transforms as a list, and the lists are ours; the rest no decoder touches.

/// A family with nothing in it.
macro_rules! nothing_of {
    ($name:ident, $kind:ident, $k:literal) => {
        #[derive(Clone, Copy)]
        pub struct $name;

        impl super::Lattice for $name {
            const KIND: super::LatticeKind = super::LatticeKind::$kind;

            fn model_point(self, c: super::Coord) -> nalgebra::Point2<f32> {
                nalgebra::Point2(c.u as f32, c.v as f32)
            }

            fn neighbour_offsets(self) -> &'static [super::Coord] {
                &[]
            }

            fn symmetry_transforms(self) -> &'static [super::GridTransform] {
                &[]
            }

            fn axis_family_count(self) -> usize {
                $k / 2
            }

            fn model_axis_directions(self) -> &'static [nalgebra::Vector2<f32>] {
                &[]
            }

            fn cell_topology(self) -> super::CellTopology {
                super::CellTopology::TriangleIsCell
            }
        }
    };
}
pub(super) use nothing_of;

nothing_of!(Square, Square, 4);

pub const SQUARE_CARDINAL_OFFSETS: [super::Coord; 4] = [super::Coord::new(0, 0); 4];
pub const D4_TRANSFORMS: [super::GridTransform; 8] = [super::GridTransform::IDENTITY; 8];
