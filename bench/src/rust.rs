//! The calls of the Rust.

use crate::lists::{Chart, List};
use crate::sides::{job, words, Job, Side, Six, Word, LENGTH, RATIO};
use visioncortex::reduce::{reduce, simplify_douglas_peucker};
use visioncortex::{
    BinaryImage, PathF64, PathI32, PathWalker, PointF64, PointI32, SubdivideSmooth,
};

pub struct Rust;

impl Side for Rust {
    fn walk(&self, chart: &Chart) -> Box<dyn Job> {
        let mut image = BinaryImage::new_w_h(chart.side, chart.side);
        for cell in 0..chart.side * chart.side {
            let set = chart.bytes[cell / 8] >> (7 - cell % 8) & 1 == 1;
            image.set_pixel(cell % chart.side, cell / chart.side, set);
        }
        let start = PointI32::new(chart.start[0], chart.start[1]);
        let run = move |out: &mut Vec<_>| *out = PathWalker::new(&image, start, true).collect();
        job(Vec::new(), run, |out| flat(out))
    }

    fn simplify(&self, list: &List) -> Box<dyn Job> {
        let path = PathI32::from_points(points(list));
        job(PathI32::new(), move |out| *out = path.simplify(true), |out| flat(&out.path))
    }

    fn reduce(&self, list: &List, tolerances: Six) -> Box<dyn Job> {
        let points = points(list);
        six(tolerances, move |tolerance| reduce(&points, tolerance))
    }

    fn douglas_peucker(&self, list: &List, squared: Six) -> Box<dyn Job> {
        let points = points(list);
        six(squared, move |tolerance| simplify_douglas_peucker(&points, tolerance))
    }

    fn numbers(&self, _: &List) -> Option<Box<dyn Job>> {
        None
    }

    fn zooms(&self, _: &List, _: Six) -> Option<Box<dyn Job>> {
        None
    }

    fn numbers_and_zooms(&self, list: &List, squared: Six) -> Box<dyn Job> {
        self.douglas_peucker(list, squared)
    }

    fn find_corners(&self, list: &List) -> Box<dyn Job> {
        let (path, closed) = (PathI32::from_points(points(list)), list.closed);
        let angle = 0.75 * std::f64::consts::PI;
        let run = move |out: &mut _| *out = SubdivideSmooth::find_corners(&path, angle, closed);
        let flag = |&corner: &bool| u8::from(corner);
        job(Vec::new(), run, move |out| words(&out.iter().map(flag).collect::<Vec<u8>>()))
    }

    fn subdivide(&self, list: &List, corners: &[u8]) -> Box<dyn Job> {
        let double = |p: &[i32; 2]| PointF64::new(f64::from(p[0]), f64::from(p[1]));
        let path = PathF64::from_points(list.points.iter().map(double).collect());
        let corners: Vec<bool> = corners.iter().map(|&flag| flag == 1).collect();
        let closed = list.closed;
        let round =
            move || SubdivideSmooth::subdivide_keep_corners(&path, &corners, RATIO, LENGTH, closed);
        let answer = |(path, corners, finished): &(PathF64, Vec<bool>, bool)| {
            let values: Vec<f64> = path.path.iter().flat_map(|p| [p.x, p.y]).collect();
            let flags: Vec<u8> = corners.iter().map(|&flag| u8::from(flag)).collect();
            [words(&values), words(&flags), vec![u8::from(*finished).word()]].concat()
        };
        job((PathF64::new(), Vec::new(), false), move |out| *out = round(), answer)
    }

    fn roots(&self, squares: &[f64]) -> Box<dyn Job> {
        let (squares, roots) = (squares.to_vec(), squares.to_vec());
        let run = move |roots: &mut Vec<f64>| {
            for (root, &square) in roots.iter_mut().zip(&squares) {
                *root = sqrt(square);
            }
        };
        job(roots, run, |roots| words(roots))
    }
}

/// A call of its own for each root, as ours is.
#[inline(never)]
fn sqrt(square: f64) -> f64 {
    square.sqrt()
}

fn six(six: Six, call: impl Fn(f64) -> Vec<PointI32> + 'static) -> Box<dyn Job> {
    let run = move |out: &mut Vec<_>| *out = six.into_iter().map(&call).collect();
    job(Vec::new(), run, |out: &Vec<Vec<PointI32>>| out.iter().flat_map(|p| flat(p)).collect())
}

fn points(list: &List) -> Vec<PointI32> {
    list.points.iter().map(|p| PointI32::new(p[0], p[1])).collect()
}

fn flat(points: &[PointI32]) -> Vec<u64> {
    let values: Vec<i32> = points.iter().flat_map(|p| [p.x, p.y]).collect();
    words(&values)
}
