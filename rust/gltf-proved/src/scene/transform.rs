//! Where a node is.
use crate::sys;

/// Where a node is, below its parent.
#[derive(Clone, Copy, Debug, PartialEq)]
pub enum Transform {
    /// By a matrix.
    Matrix {
        /// Its columns.
        matrix: [[f32; 4]; 4],
    },
    /// By its parts: first it is scaled, then turned, then moved.
    Decomposed {
        /// By how much it is moved.
        translation: [f32; 3],
        /// By how much it is turned: x, y, z, w, as the file says. It is to be a unit quaternion,
        /// and no rule checks that.
        rotation: [f32; 4],
        /// By how much it is scaled.
        scale: [f32; 3],
    },
}

fn floats<const N: usize>(numbers: [f64; N]) -> [f32; N] {
    numbers.map(|number| number as f32)
}

fn length(column: [f32; 3]) -> f32 {
    column.iter().map(|number| number * number).sum::<f32>().sqrt()
}

impl Transform {
    pub(crate) fn of_info(info: &sys::gltf_node) -> Transform {
        if info.has & sys::GLTF_HAS_MATRIX == 0 {
            return Transform::Decomposed {
                translation: floats(info.translation),
                rotation: floats(info.rotation),
                scale: floats(info.scale),
            };
        }
        let numbers = floats(info.matrix);
        let column = |at: usize| [0, 1, 2, 3].map(|row| numbers[at * 4 + row]);
        Transform::Matrix { matrix: [0, 1, 2, 3].map(column) }
    }

    /// The columns of the matrix.
    pub fn matrix(self) -> [[f32; 4]; 4] {
        match self {
            Transform::Matrix { matrix } => matrix,
            Transform::Decomposed { translation: [x, y, z], rotation, scale } => {
                let mut columns = [[0.0; 4]; 4];
                for (at, turned) in rotated(rotation).into_iter().enumerate() {
                    for row in 0..3 {
                        columns[at][row] = turned[row] * scale[at];
                    }
                }
                columns[3] = [x, y, z, 1.0];
                columns
            }
        }
    }

    /// The translation, the rotation and the scale. Of a matrix that shears it is the nearest that
    /// there is.
    pub fn decomposed(self) -> ([f32; 3], [f32; 4], [f32; 3]) {
        match self {
            Transform::Decomposed { translation, rotation, scale } => {
                (translation, rotation, scale)
            }
            Transform::Matrix { matrix } => {
                let [mut x, mut y, mut z, at] = matrix.map(|[a, b, c, _]| [a, b, c]);
                let mut scale = [length(x), length(y), length(z)];
                if determinant([x, y, z]) < 0.0 {
                    scale[2] = -scale[2];
                }
                for (column, by) in [&mut x, &mut y, &mut z].into_iter().zip(scale) {
                    *column = column.map(|number| if by == 0.0 { 0.0 } else { number / by });
                }
                (at, quaternion([x, y, z]), scale)
            }
        }
    }
}

/// The columns of the matrix that turns by a unit quaternion.
fn rotated([x, y, z, w]: [f32; 4]) -> [[f32; 3]; 3] {
    [
        [1.0 - 2.0 * (y * y + z * z), 2.0 * (x * y + z * w), 2.0 * (x * z - y * w)],
        [2.0 * (x * y - z * w), 1.0 - 2.0 * (x * x + z * z), 2.0 * (y * z + x * w)],
        [2.0 * (x * z + y * w), 2.0 * (y * z - x * w), 1.0 - 2.0 * (x * x + y * y)],
    ]
}

fn determinant([x, y, z]: [[f32; 3]; 3]) -> f32 {
    x[0] * (y[1] * z[2] - y[2] * z[1]) - y[0] * (x[1] * z[2] - x[2] * z[1])
        + z[0] * (x[1] * y[2] - x[2] * y[1])
}

/// The unit quaternion that turns as the matrix with these columns does: the part that is the
/// greatest comes from the diagonal, and the others from the sums and differences beside it.
fn quaternion([x, y, z]: [[f32; 3]; 3]) -> [f32; 4] {
    let trace = x[0] + y[1] + z[2];
    let diagonal = [x[0], y[1], z[2], trace];
    let greatest = (0..4).fold(3, |best, at| if diagonal[at] > diagonal[best] { at } else { best });
    let of = |signs: [f32; 3]| {
        let [a, b, c] = signs;
        (1.0 + a * x[0] + b * y[1] + c * z[2]).max(0.0).sqrt() * 2.0
    };
    match greatest {
        0 => {
            let s = of([1.0, -1.0, -1.0]);
            [s / 4.0, (x[1] + y[0]) / s, (x[2] + z[0]) / s, (y[2] - z[1]) / s]
        }
        1 => {
            let s = of([-1.0, 1.0, -1.0]);
            [(x[1] + y[0]) / s, s / 4.0, (y[2] + z[1]) / s, (z[0] - x[2]) / s]
        }
        2 => {
            let s = of([-1.0, -1.0, 1.0]);
            [(x[2] + z[0]) / s, (y[2] + z[1]) / s, s / 4.0, (x[1] - y[0]) / s]
        }
        _ => {
            let s = of([1.0, 1.0, 1.0]);
            [(y[2] - z[1]) / s, (z[0] - x[2]) / s, (x[1] - y[0]) / s, s / 4.0]
        }
    }
}

#[cfg(test)]
mod tests {
    use super::Transform;

    /// A rotation about an axis, by an angle.
    fn turn([x, y, z]: [f32; 3], angle: f32) -> [f32; 4] {
        let (sin, cos) = ((angle / 2.0).sin(), (angle / 2.0).cos());
        [x * sin, y * sin, z * sin, cos]
    }

    fn comes_back(translation: [f32; 3], rotation: [f32; 4], scale: [f32; 3]) {
        let matrix = Transform::Decomposed { translation, rotation, scale }.matrix();
        let (translation, rotation, scale) = Transform::Matrix { matrix }.decomposed();
        let again = Transform::Decomposed { translation, rotation, scale }.matrix();
        for (one, other) in matrix.iter().flatten().zip(again.iter().flatten()) {
            assert!((one - other).abs() <= 1e-4 * one.abs().max(1.0), "{matrix:?}\n{again:?}");
        }
    }

    #[test]
    fn a_matrix_is_taken_apart() {
        let axes = [[1.0, 0.0, 0.0], [0.0, 1.0, 0.0], [0.0, 0.0, 1.0], [0.6, 0.0, 0.8]];
        let scales = [[1.0; 3], [2.0, 3.0, 4.0], [1.0, -1.0, 1.0], [0.01, 5.0, -2.0]];
        for axis in axes {
            for step in -8..=8 {
                let rotation = turn(axis, step as f32 * std::f32::consts::FRAC_PI_4);
                for scale in scales {
                    comes_back([1.0, -2.0, 1000.5], rotation, scale);
                }
            }
        }
    }

    #[test]
    fn a_quarter_turn_about_z_takes_x_to_y() {
        let rotation = turn([0.0, 0.0, 1.0], std::f32::consts::FRAC_PI_2);
        let (translation, scale) = ([7.0, 8.0, 9.0], [2.0, 1.0, 1.0]);
        let matrix = Transform::Decomposed { translation, rotation, scale }.matrix();
        assert!((matrix[0][1] - 2.0).abs() < 1e-6 && matrix[0][0].abs() < 1e-6);
        assert_eq!(matrix[3], [7.0, 8.0, 9.0, 1.0]);
    }
}
