//! Stands in for nalgebra: the names of two types. No decoder touches them.

pub struct Point2<T>(pub T, pub T);

pub struct Vector2<T>(pub T, pub T);
