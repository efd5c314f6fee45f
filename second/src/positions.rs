//! A point's latitude and longitude.

/// The last two digits of a permitted mesh code are each 0 to 7.
pub fn mesh_permitted(mesh: i32) -> bool {
    (100_000..=999_999).contains(&mesh) && mesh / 10 % 10 <= 7 && mesh % 10 <= 7
}

/// X and Y run from 0 to 10000.
pub fn coordinate_permitted(coordinate: i32) -> bool {
    (0..=10_000).contains(&coordinate)
}

/// Latitude and longitude in degrees, or refusal 6.
pub fn position(mesh: i32, x: i32, y: i32) -> Result<(f64, f64), u32> {
    if !mesh_permitted(mesh) || !coordinate_permitted(x) || !coordinate_permitted(y) {
        return Err(6);
    }
    let digits: Vec<i32> = mesh.to_string().bytes().map(|digit| i32::from(digit - b'0')).collect();
    let pp = digits[0] * 10 + digits[1];
    let uu = digits[2] * 10 + digits[3];
    let (q, v) = (digits[4], digits[5]);
    let latitude = pp * 240_000 + q * 30_000 + 3 * y;
    let longitude = (100 + uu) * 720_000 + v * 90_000 + 9 * x;
    Ok((f64::from(latitude) / 360_000.0, f64::from(longitude) / 720_000.0))
}
