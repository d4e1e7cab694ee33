//! A small stand-in for the crate cgmath, which no Debian package carries.
//!
//! It holds what the six published files name, for f32. The order of the rounded operations is
//! document 01's: `dot` adds left to right, `magnitude` is the root of a vector's dot product with
//! itself, `normalize` multiplies by 1 / magnitude, a scalar times a vector has the scalar first.

use std::ops::{Add, Div, Index, IndexMut, Mul, Neg, Sub};

/// A value that adds nothing.
pub trait Zero {
    fn zero() -> Self;
}

/// Vectors with a dot product.
pub trait InnerSpace: Copy + Mul<f32, Output = Self> {
    fn dot(self, other: Self) -> f32;

    fn magnitude(self) -> f32 {
        self.dot(self).sqrt()
    }

    fn normalize(self) -> Self {
        self * (1.0 / self.magnitude())
    }
}

/// Angles that have a tangent.
pub trait Angle {
    fn tan(self) -> f32;
    fn atan(ratio: f32) -> Self;
}

#[derive(Copy, Clone, Debug, PartialEq)]
pub struct Vector2<S> {
    pub x: S,
    pub y: S,
}

#[derive(Copy, Clone, Debug, PartialEq)]
pub struct Vector3<S> {
    pub x: S,
    pub y: S,
    pub z: S,
}

impl Vector3<f32> {
    pub fn new(x: f32, y: f32, z: f32) -> Self {
        Vector3 { x, y, z }
    }

    pub fn unit_x() -> Self {
        Vector3::new(1.0, 0.0, 0.0)
    }

    pub fn unit_y() -> Self {
        Vector3::new(0.0, 1.0, 0.0)
    }

    pub fn unit_z() -> Self {
        Vector3::new(0.0, 0.0, 1.0)
    }

    pub fn cross(self, other: Self) -> Self {
        Vector3::new(
            (self.y * other.z) - (self.z * other.y),
            (self.z * other.x) - (self.x * other.z),
            (self.x * other.y) - (self.y * other.x),
        )
    }
}

impl Zero for Vector3<f32> {
    fn zero() -> Self {
        Vector3::new(0.0, 0.0, 0.0)
    }
}

impl InnerSpace for Vector3<f32> {
    fn dot(self, other: Self) -> f32 {
        ((self.x * other.x) + (self.y * other.y)) + (self.z * other.z)
    }
}

impl Add for Vector3<f32> {
    type Output = Self;

    fn add(self, other: Self) -> Self {
        Vector3::new(self.x + other.x, self.y + other.y, self.z + other.z)
    }
}

impl Sub for Vector3<f32> {
    type Output = Self;

    fn sub(self, other: Self) -> Self {
        Vector3::new(self.x - other.x, self.y - other.y, self.z - other.z)
    }
}

impl Neg for Vector3<f32> {
    type Output = Self;

    fn neg(self) -> Self {
        Vector3::new(-self.x, -self.y, -self.z)
    }
}

impl Mul<f32> for Vector3<f32> {
    type Output = Self;

    fn mul(self, scalar: f32) -> Self {
        Vector3::new(self.x * scalar, self.y * scalar, self.z * scalar)
    }
}

impl Mul<Vector3<f32>> for f32 {
    type Output = Vector3<f32>;

    fn mul(self, vector: Vector3<f32>) -> Vector3<f32> {
        Vector3::new(self * vector.x, self * vector.y, self * vector.z)
    }
}

impl From<[f32; 3]> for Vector3<f32> {
    fn from(v: [f32; 3]) -> Self {
        Vector3::new(v[0], v[1], v[2])
    }
}

impl From<[f32; 2]> for Vector2<f32> {
    fn from(v: [f32; 2]) -> Self {
        Vector2 { x: v[0], y: v[1] }
    }
}

impl Index<usize> for Vector3<f32> {
    type Output = f32;

    fn index(&self, at: usize) -> &f32 {
        match at {
            0 => &self.x,
            1 => &self.y,
            2 => &self.z,
            _ => panic!("vector index out of range: {}", at),
        }
    }
}

impl IndexMut<usize> for Vector3<f32> {
    fn index_mut(&mut self, at: usize) -> &mut f32 {
        match at {
            0 => &mut self.x,
            1 => &mut self.y,
            2 => &mut self.z,
            _ => panic!("vector index out of range: {}", at),
        }
    }
}

impl Index<usize> for Vector2<f32> {
    type Output = f32;

    fn index(&self, at: usize) -> &f32 {
        match at {
            0 => &self.x,
            1 => &self.y,
            _ => panic!("vector index out of range: {}", at),
        }
    }
}

/// An angle in degrees.
#[derive(Copy, Clone, Debug, PartialEq, PartialOrd)]
pub struct Deg<S>(pub S);

impl Angle for Deg<f32> {
    fn tan(self) -> f32 {
        self.0.to_radians().tan()
    }

    fn atan(ratio: f32) -> Self {
        Deg(ratio.atan().to_degrees())
    }
}

impl Neg for Deg<f32> {
    type Output = Self;

    fn neg(self) -> Self {
        Deg(-self.0)
    }
}

impl Add for Deg<f32> {
    type Output = Self;

    fn add(self, other: Self) -> Self {
        Deg(self.0 + other.0)
    }
}

impl Mul<f32> for Deg<f32> {
    type Output = Self;

    fn mul(self, scalar: f32) -> Self {
        Deg(self.0 * scalar)
    }
}

impl Div<f32> for Deg<f32> {
    type Output = Self;

    fn div(self, scalar: f32) -> Self {
        Deg(self.0 / scalar)
    }
}

/// Square matrices by columns. The published files make turns of them and multiply them; nothing
/// that is compared depends on one.
macro_rules! matrix {
    ($name:ident, $size:literal) => {
        #[derive(Copy, Clone, Debug, PartialEq)]
        pub struct $name<S>(pub [[S; $size]; $size]);

        impl $name<f32> {
            /// A turn in the plane of the two axes.
            fn turn(angle: Deg<f32>, from: usize, to: usize) -> Self {
                let (sin, cos) = angle.0.to_radians().sin_cos();
                let mut columns = [[0.0; $size]; $size];
                for i in 0..$size {
                    columns[i][i] = 1.0;
                }
                columns[from][from] = cos;
                columns[from][to] = sin;
                columns[to][from] = -sin;
                columns[to][to] = cos;
                $name(columns)
            }

            pub fn from_angle_x(angle: Deg<f32>) -> Self {
                Self::turn(angle, 1, 2)
            }

            pub fn from_angle_y(angle: Deg<f32>) -> Self {
                Self::turn(angle, 2, 0)
            }

            pub fn from_angle_z(angle: Deg<f32>) -> Self {
                Self::turn(angle, 0, 1)
            }
        }

        impl Mul for $name<f32> {
            type Output = Self;

            fn mul(self, other: Self) -> Self {
                let mut columns = [[0.0; $size]; $size];
                for c in 0..$size {
                    for r in 0..$size {
                        for k in 0..$size {
                            columns[c][r] += self.0[k][r] * other.0[c][k];
                        }
                    }
                }
                $name(columns)
            }
        }
    };
}

matrix!(Matrix3, 3);
matrix!(Matrix4, 4);
