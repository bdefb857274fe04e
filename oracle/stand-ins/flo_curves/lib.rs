//! Stand-in for the crate `flo_curves`: the names that point.rs and smooth.rs mention. Nothing that
//! we compare runs into a body of this file.

pub trait Coordinate2D {
    fn x(&self) -> f64;
    fn y(&self) -> f64;
}

pub trait Coordinate: Sized {
    fn from_components(components: &[f64]) -> Self;
    fn origin() -> Self;
    fn len() -> usize;
    fn get(&self, index: usize) -> f64;
    fn from_biggest_components(p1: Self, p2: Self) -> Self;
    fn from_smallest_components(p1: Self, p2: Self) -> Self;
}

impl Coordinate for f64 {
    fn from_components(_: &[f64]) -> Self {
        unimplemented!()
    }

    fn origin() -> Self {
        unimplemented!()
    }

    fn len() -> usize {
        unimplemented!()
    }

    fn get(&self, _: usize) -> f64 {
        unimplemented!()
    }

    fn from_biggest_components(_: Self, _: Self) -> Self {
        unimplemented!()
    }

    fn from_smallest_components(_: Self, _: Self) -> Self {
        unimplemented!()
    }
}

pub trait BezierCurveFactory: Sized {
    type Point;
    fn fit_from_points(points: &[Self::Point], max_error: f64) -> Option<Vec<Self>>;
}

pub mod bezier {
    #[derive(Clone, Copy)]
    pub struct Curve<P> {
        pub start_point: P,
        pub end_point: P,
        pub control_points: (P, P),
    }

    impl<P> super::BezierCurveFactory for Curve<P> {
        type Point = P;

        fn fit_from_points(_: &[P], _: f64) -> Option<Vec<Self>> {
            unimplemented!()
        }
    }
}
