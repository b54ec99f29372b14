//! The crate itself, through the shims: the positions and steps of document 01's examples, as it is and asked for a call that clears as the
//! judge asks it, and the counted copy against the unchanged one.
#![cfg(has_taffy)]

use host::random::Random;
use host::{float, float_counted, AvailableSpace, Clear, Direction, FloatDirection, Size};

const LEFT: FloatDirection = FloatDirection::Left;
const RIGHT: FloatDirection = FloatDirection::Right;

/// A page 100 wide.
struct Page(float_counted::FloatContext);

impl Page {
    fn fresh() -> Self {
        let mut page = float_counted::FloatContext::new();
        page.set_width(100.0);
        Page(page)
    }

    /// x, y and the steps.
    fn place(
        &mut self,
        side: FloatDirection,
        size: [f32; 2],
        min_y: f32,
        insets: [f32; 2],
        clear: Clear,
    ) -> (f32, f32, u32) {
        float_counted::take_steps();
        let at = self.0.place_floated_box(Size { width: size[0], height: size[1] }, min_y, insets, side, clear);
        (at.x, at.y, float_counted::take_steps())
    }

    fn plain(&mut self, side: FloatDirection, width: f32, height: f32) -> (f32, f32, u32) {
        self.place(side, [width, height], 0.0, [0.0, 0.0], Clear::None)
    }
}

#[test]
fn examples_1_to_3() {
    let mut page = Page::fresh();
    assert_eq!(page.plain(LEFT, 10.0, 10.0), (0.0, 0.0, 0));
    assert_eq!(page.0.band_count(), 2);
    assert_eq!(page.plain(RIGHT, 10.0, 30.0), (90.0, 0.0, 1));
    let mut as_it_is = Page(page.0.clone());
    assert_eq!(as_it_is.place(LEFT, [10.0, 5.0], 0.0, [0.0, 0.0], Clear::Left), (0.0, 30.0, 0));
    let min_y = page.0.raised(0.0, Clear::Left);
    assert_eq!(page.place(LEFT, [10.0, 5.0], min_y, [0.0, 0.0], Clear::None), (0.0, 10.0, 0));
}

/// To no bottom, to that of a side, to the lower one, and not to one above; for a slot only where a band ends below min_y.
#[test]
fn raised() {
    let mut page = Page::fresh();
    let all = [Clear::None, Clear::Left, Clear::Right, Clear::Both];
    assert_eq!(all.map(|clear| page.0.raised(-7.0, clear)), [-7.0; 4]);
    page.plain(LEFT, 10.0, 10.0);
    assert_eq!(all.map(|clear| page.0.raised(0.0, clear)), [0.0, 10.0, 0.0, 10.0]);
    page.plain(RIGHT, 10.0, 30.0);
    page.place(RIGHT, [10.0, 0.0], 50.0, [0.0, 0.0], Clear::None);
    assert_eq!(all.map(|clear| page.0.raised(0.0, clear)), [0.0, 10.0, 50.0, 50.0]);
    assert_eq!(all.map(|clear| page.0.raised(20.0, clear)), [20.0, 20.0, 50.0, 50.0]);
    assert_eq!(all.map(|clear| page.0.raised_for_slot(0.0, clear)), [0.0, 10.0, 50.0, 50.0]);
    assert_eq!(all.map(|clear| page.0.raised_for_slot(29.0, clear)), [29.0, 29.0, 50.0, 50.0]);
    assert_eq!(all.map(|clear| page.0.raised_for_slot(30.0, clear)), [30.0; 4]);
}

#[test]
fn example_4() {
    let mut page = Page::fresh();
    page.plain(LEFT, 100.0, 10.0);
    assert_eq!(page.plain(LEFT, 50.0, 0.0), (0.0, 0.0, 1));
}

#[test]
fn examples_5_to_8() {
    let mut page = Page::fresh();
    page.plain(LEFT, 10.0, 30.0);
    assert_eq!(page.place(LEFT, [10.0, 60.0], 0.0, [0.0, 60.0], Clear::None), (10.0, 0.0, 1));
    assert_eq!(page.plain(LEFT, 10.0, 10.0), (20.0, 0.0, 0));
    assert_eq!(page.plain(RIGHT, 5.0, 20.0), (95.0, 0.0, 1));
    assert_eq!(page.plain(LEFT, 20.0, 45.0), (20.0, 10.0, 5));
    assert!(page.0.bands().iter().all(|band| band.start != 55.0 && band.end != 55.0));
    let slot = page.0.find_content_slot(56.0, [0.0, 0.0], Clear::None, None);
    assert_eq!((slot.segment_id, slot.x, slot.y, slot.width), (Some(4), 40.0, 56.0, 0.0));
}

#[test]
fn example_9() {
    let mut page = Page::fresh();
    page.place(LEFT, [50.0, 0.0], 20.0, [0.0, 0.0], Clear::None);
    for (min_y, clear) in [(0.0, Clear::Left), (page.0.raised_for_slot(0.0, Clear::Left), Clear::None)] {
        let slot = page.0.find_content_slot(min_y, [0.0, 0.0], clear, None);
        assert_eq!((slot.segment_id, slot.y), (None, 0.0));
    }
}

#[test]
fn example_10() {
    for (width, at) in [(40.0005, (60.0, 0.0)), (40.01, (0.0, 10.0))] {
        let mut page = Page::fresh();
        page.plain(LEFT, 60.0, 10.0);
        let (x, y, _) = page.plain(LEFT, width, 10.0);
        assert_eq!((x, y), at);
    }
}

/// What Debug prints of the page's width and bands, put together from what the counted copy hands out.
fn parts_of_debug(page: &float_counted::FloatContext) -> [String; 2] {
    let segments: Vec<String> = page
        .bands()
        .iter()
        .map(|b| {
            format!("Segment {{ y: {:?}..{:?}, insets: {:?}, has_float: {:?} }}", b.start, b.end, b.insets, b.marks)
        })
        .collect();
    [format!("{{ available_width: {:?},", page.width()), format!(" segments: [{}],", segments.join(", "))]
}

/// Both copies answer every call alike and print the same page, and the counted one hands out its width and bands.
#[test]
fn counted_copy_is_the_crate() {
    let mut random = Random(3);
    for _ in 0..2_000 {
        let width = random.pick(&[0.0, 64.0, 100.0, 320.5]);
        let (mut plain, mut counted) = (float::FloatContext::new(), float_counted::FloatContext::new());
        plain.set_width(width);
        counted.set_width(width);
        for _ in 0..random.below(30) {
            let mut number = || random.below(800) as f32 / random.pick(&[8.0, 64.0, 7.0]) - random.pick(&[0.0, 3.0]);
            let [min_y, left, right, w, h] = [(); 5].map(|()| number());
            let insets = [left.abs(), right.abs()];
            let size = Size { width: w.abs(), height: h.abs() };
            let side = random.pick(&[LEFT, RIGHT]);
            let clear = random.pick(&[Clear::None, Clear::None, Clear::None, Clear::Left, Clear::Right, Clear::Both]);
            let direction = random.pick(&[Direction::Ltr, Direction::Rtl]);
            let after = random.pick(&[None, Some(0), Some(1), Some(5)]);
            assert_eq!(
                plain.place_floated_box(size, min_y, insets, side, clear),
                counted.place_floated_box(size, min_y, insets, side, clear)
            );
            assert_eq!(
                format!("{:?}", plain.find_content_slot(min_y, insets, clear, after)),
                format!("{:?}", counted.find_content_slot(min_y, insets, clear, after))
            );
            assert_eq!(
                format!("{:?}", plain.find_bfc_slot(min_y, insets, [right - 9.0, left - 9.0], direction, clear, after)),
                format!(
                    "{:?}",
                    counted.find_bfc_slot(min_y, insets, [right - 9.0, left - 9.0], direction, clear, after)
                )
            );
            let printed = format!("{plain:?}");
            assert_eq!(printed, format!("{counted:?}"));
            assert!(parts_of_debug(&counted).iter().all(|part| printed.contains(part)), "{printed}");
        }
    }
}

/// The same for the calculator: the two copies agree, and the sums handed out are those behind the total.
#[test]
fn counted_calculator_is_the_crate() {
    let mut random = Random(4);
    for _ in 0..2_000 {
        let space =
            random.pick(&[AvailableSpace::Definite(100.0), AvailableSpace::MinContent, AvailableSpace::MaxContent]);
        let mut plain = float::FloatIntrinsicWidthCalculator::new(space);
        let mut counted = float_counted::FloatIntrinsicWidthCalculator::new(space);
        let mut largest = 0.0f32;
        for _ in 0..random.below(12) {
            let width = random.below(640) as f32 / 8.0;
            let side = random.pick(&[LEFT, RIGHT]);
            let clear = random.pick(&[Clear::None, Clear::Left, Clear::Right, Clear::Both]);
            plain.add_float(width, side, clear);
            counted = counted.again();
            counted.add_float(width, side, clear);
            largest = largest.max(counted.sums()[0] + counted.sums()[1]);
            assert_eq!(plain.result(), counted.result());
            if space == AvailableSpace::MaxContent {
                assert_eq!(plain.result(), largest);
            }
        }
    }
}
