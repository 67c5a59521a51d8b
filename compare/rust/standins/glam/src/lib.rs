//! Stands in for glam where it cannot be fetched: the four vectors, as far as the reader uses them.
use std::ops::{Add, Index, IndexMut};

macro_rules! vector {
    ($name:ident, $element:ty) => {
        #[derive(Clone, Copy, Debug, Default, PartialEq)]
        pub struct $name {
            pub x: $element,
            pub y: $element,
            pub z: $element,
        }

        impl $name {
            pub const fn new(x: $element, y: $element, z: $element) -> Self {
                Self { x, y, z }
            }
        }
    };
}

vector!(DVec3, f64);
vector!(Vec3, f32);
vector!(IVec3, i32);
vector!(UVec3, u32);

impl Add for IVec3 {
    type Output = Self;
    fn add(self, other: Self) -> Self {
        Self::new(self.x + other.x, self.y + other.y, self.z + other.z)
    }
}

impl IVec3 {
    pub fn as_vec3(self) -> Vec3 {
        Vec3::new(self.x as f32, self.y as f32, self.z as f32)
    }
}

impl UVec3 {
    pub fn as_ivec3(self) -> IVec3 {
        IVec3::new(self.x as i32, self.y as i32, self.z as i32)
    }
}

impl Index<usize> for UVec3 {
    type Output = u32;
    fn index(&self, n: usize) -> &u32 {
        [&self.x, &self.y, &self.z][n]
    }
}

impl IndexMut<usize> for UVec3 {
    fn index_mut(&mut self, n: usize) -> &mut u32 {
        match n {
            0 => &mut self.x,
            1 => &mut self.y,
            2 => &mut self.z,
            _ => panic!("index out of bounds"),
        }
    }
}
