//! Areas, distances and the nearest place.
#[derive(Clone, Copy, PartialEq, Eq, Debug)]
pub struct Place {
    pub lat: i32,
    pub lon: i32,
}
#[derive(Clone, Copy, PartialEq, Debug)]
pub enum Shape {
    Circle,
    Rectangle,
    Ellipse,
}
#[derive(Clone, Copy, PartialEq, Debug)]
pub struct Area {
    pub shape: Shape,
    pub centre: Place,
    pub a: u16,
    pub b: u16,
    pub angle: u16,
}
const QUARTER: [i16; 91] = [
    0, 175, 349, 523, 698, 872, 1045, 1219, 1392, 1564, 1736, 1908, 2079, 2250, 2419, 2588, 2756,
    2924, 3090, 3256, 3420, 3584, 3746, 3907, 4067, 4226, 4384, 4540, 4695, 4848, 5000, 5150, 5299,
    5446, 5592, 5736, 5878, 6018, 6157, 6293, 6428, 6561, 6691, 6820, 6947, 7071, 7193, 7314, 7431,
    7547, 7660, 7771, 7880, 7986, 8090, 8192, 8290, 8387, 8480, 8572, 8660, 8746, 8829, 8910, 8988,
    9063, 9135, 9205, 9272, 9336, 9397, 9455, 9511, 9563, 9613, 9659, 9703, 9744, 9781, 9816, 9848,
    9877, 9903, 9925, 9945, 9962, 9976, 9986, 9994, 9998, 10000,
];
const SINES: [i16; 450] = {
    let mut t = [0i16; 450];
    let mut i = 0;
    while i < 450 {
        let d = i % 360;
        let h = if d <= 180 { d } else { d - 180 };
        let q = if h <= 90 { QUARTER[h] } else { QUARTER[180 - h] };
        t[i] = if d <= 180 { q } else { -q };
        i += 1;
    }
    t
};
#[inline]
pub fn scale(lat: i32) -> i64 {
    let u = lat.unsigned_abs();
    let (d, r) = ((u / 10_000_000) as usize, (u % 10_000_000) as i64);
    if d >= 90 {
        return 0;
    }
    (QUARTER[90 - d] as i64 * (10_000_000 - r) + QUARTER[89 - d] as i64 * r) / 10_000_000
}
#[inline]
fn wrap(v: i64) -> i64 {
    if v < -1_800_000_000 {
        v + 3_600_000_000
    } else if v > 1_800_000_000 {
        v - 3_600_000_000
    } else {
        v
    }
}
#[inline]
pub fn offset(c: Place, k: i64, p: Place) -> (i64, i64) {
    (
        (p.lat as i64 - c.lat as i64) * 11132 / 10000,
        wrap(p.lon as i64 - c.lon as i64) * (11132 * k) / 100_000_000,
    )
}
#[inline]
pub fn distance2(c: Place, p: Place) -> u64 {
    let (n, e) = offset(c, scale(c.lat), p);
    (n * n + e * e) as u64
}
/// Plain.
pub fn nearest(c: Place, ps: &[Place]) -> Option<usize> {
    let k = scale(c.lat);
    ps.iter()
        .enumerate()
        .min_by_key(|(_, p)| {
            let (n, e) = offset(c, k, **p);
            n * n + e * e
        })
        .map(|(i, _)| i)
}
#[inline]
pub fn contains(area: &Area, p: Place) -> bool {
    let (n, e) = offset(area.centre, scale(area.centre.lat), p);
    let (a, b) = (100 * area.a as u64, 100 * area.b as u64);
    if area.shape == Shape::Circle {
        return (n * n + e * e) as u64 <= a * a;
    }
    let t = area.angle as usize;
    let (s, c) = (SINES[t] as i64, SINES[t + 90] as i64);
    let (x, y) =
        (((n * c + e * s) / 10000).unsigned_abs(), ((e * c - n * s) / 10000).unsigned_abs());
    if area.shape == Shape::Rectangle {
        return x <= a && y <= b;
    }
    let w = |p: u64, q: u64| p as u128 * q as u128;
    w(x * x, b * b) + w(y * y, a * a) <= w(a * a, b * b)
}
