//! The faces of a grid of points, row after row: two for each cell.

/// The faces of a grid with `side` points a row, and as many rows.
pub fn faces(side: usize) -> Vec<[u32; 3]> {
    let mut faces = Vec::new();
    for y in 0..side - 1 {
        for x in 0..side - 1 {
            let a = (y * side + x) as u32;
            let b = a + side as u32;
            faces.push([a, a + 1, b]);
            faces.push([b, a + 1, b + 1]);
        }
    }
    faces
}
