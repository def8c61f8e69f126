//! Stands in for the prediction of a grid position, which no decoder touches.

pub struct PredictedPosition;

pub fn predict_grid_position() -> PredictedPosition {
    PredictedPosition
}
