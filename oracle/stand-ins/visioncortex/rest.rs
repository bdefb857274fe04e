//! The types that the taken files mention and that are not among them: with what those files need
//! to compile. Nothing that we compare runs into a body of this file.

use crate::{BinaryImage, PointI32};

pub struct Polar2<T> {
    pub a: T,
    pub r: T,
}

pub type PolarF64 = Polar2<f64>;

#[derive(Default)]
pub struct BoundingRect {
    pub left: i32,
    pub top: i32,
    pub right: i32,
    pub bottom: i32,
}

impl BoundingRect {
    pub fn add_x_y(&mut self, _: i32, _: i32) {
        unimplemented!()
    }

    pub fn width(&self) -> i32 {
        unimplemented!()
    }

    pub fn height(&self) -> i32 {
        unimplemented!()
    }
}

pub struct Color {
    pub r: u8,
    pub g: u8,
    pub b: u8,
    pub a: u8,
}

pub enum ColorName {
    Black,
    White,
}

pub trait ColorType: Sized {
    fn color(_: &ColorName) -> Self {
        unimplemented!()
    }
}

impl ColorType for Color {}

impl Color {
    pub fn new_rgba(_: u8, _: u8, _: u8, _: u8) -> Self {
        unimplemented!()
    }

    pub fn channel(&self, _: usize) -> Option<u8> {
        unimplemented!()
    }
}

#[derive(Clone, Default)]
pub struct Field<T>(Vec<T>);

impl<T> Field<T> {
    pub fn with_default(_: usize, _: usize) -> Self {
        unimplemented!()
    }

    pub fn get(&self, _: usize) -> Option<T> {
        unimplemented!()
    }

    pub fn index_at(&self, _: usize, _: usize) -> usize {
        unimplemented!()
    }

    pub fn replace(&mut self, _: usize, _: T) {
        unimplemented!()
    }
}

pub struct Shape;

impl Shape {
    pub fn image_boundary_and_position_length(_: &BinaryImage) -> ((), Option<PointI32>, ()) {
        unimplemented!()
    }
}
