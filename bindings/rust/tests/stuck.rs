//! What include/sandline.h says of walks that never come back to their start, over all small charts.

use sandline::*;

/// Calls `each` with every chart of up to `most` pixels each way that is not blank.
fn charts(most: usize, mut each: impl FnMut(Chart)) {
    let sizes = (1..=most).flat_map(|width| (1..=most).map(move |height| (width, height)));
    for (width, height) in sizes {
        for set in 1..1_u32 << (width * height) {
            let row = |y: usize| ((set >> (y * width)) as u8) << (8 - width);
            let pixels: Vec<u8> = (0..height).map(row).collect();
            each(Chart { width, height, pixels: &pixels });
        }
    }
}

/// The corners of a chart's pixels.
fn corners(chart: &Chart) -> impl Iterator<Item = Point> {
    let (width, height) = (chart.width as i32, chart.height as i32);
    (0..=height).flat_map(move |y| (0..=width).map(move |x| [x, y]))
}

/// Whether somewhere pixels touch only diagonally.
fn touches(chart: &Chart) -> bool {
    corners(chart).any(|[x, y]| {
        let set = |right: i32, down: i32| chart.pixel(x - 1 + right, y - 1 + down);
        set(0, 0) == set(1, 1) && set(0, 1) == set(1, 0) && set(0, 0) != set(0, 1)
    })
}

fn stuck(chart: &Chart, start: Point, clockwise: bool) -> bool {
    chart.walk(start, clockwise, &mut [[0; 2]; 99]) == Err(Refusal::Stuck)
}

#[test]
fn of_673_charts_28_are_stuck() {
    let (mut all, mut stuck_at_first, mut other_way) = (0, 0, 0);
    charts(3, |chart| {
        let start = chart.first_start().unwrap();
        all += 1;
        if stuck(&chart, start, true) {
            stuck_at_first += 1;
            other_way += usize::from(!stuck(&chart, start, false));
            let answered = |start| chart.walk(start, true, &mut [[0; 2]; 99]).is_ok();
            assert!(corners(&chart).any(answered), "{chart:?}");
        }
    });
    assert_eq!((all, stuck_at_first, other_way), (673, 28, 24));
}

#[test]
fn none_is_stuck_where_no_pixels_touch_only_diagonally() {
    charts(4, |chart| {
        let start = chart.first_start().unwrap();
        assert!(touches(&chart) || !stuck(&chart, start, true), "{chart:?}");
    });
}
