// Times the Rust on the transcripts of crates/bench: the same lines, clauses, questions and filings, and so the
// same checksums.

use crate::window_state::{WindowAggState, WindowFrameContext};
use crate::{WindowFrame, WindowFrameBound, WindowFrameUnits};
use arrow::array::{ArrayRef, Column};
use arrow::compute::SortOptions;
use arrow::datatypes::DataType;
use datafusion_common::ScalarValue;
use std::ops::Range;
use std::sync::Arc;
use std::time::Instant;

const COME: usize = 100;

fn preceding(n: u64) -> WindowFrameBound {
    WindowFrameBound::Preceding(ScalarValue::UInt64(Some(n)))
}

fn following(n: u64) -> WindowFrameBound {
    WindowFrameBound::Following(ScalarValue::UInt64(Some(n)))
}

fn column(values: &[Option<i128>]) -> ArrayRef {
    Arc::new(Column { data_type: DataType::UInt64, values: values.to_vec() })
}

fn context(frame: &WindowFrame) -> WindowFrameContext {
    let rising = SortOptions { descending: false, nulls_first: false };
    WindowFrameContext::new(Arc::new(frame.clone()), vec![rising])
}

fn summed(sum: u64, window: &Range<usize>) -> u64 {
    let sum = sum.wrapping_mul(31).wrapping_add(window.start as u64);
    sum.wrapping_mul(31).wrapping_add(window.end as u64)
}

fn whole(mut context: WindowFrameContext, keys: &[Option<i128>]) -> u64 {
    let columns = [column(keys)];
    let (mut last, mut sum) = (0..0, 0);
    for idx in 0..keys.len() {
        last = context.calculate_range(&columns, &last, keys.len(), idx).expect("a window");
        sum = summed(sum, &last);
    }
    sum
}

fn live(context: WindowFrameContext, keys: &[Option<i128>]) -> u64 {
    let mut columns = [column(&[])];
    let mut state = WindowAggState::new(&DataType::UInt64).expect("a state");
    state.window_frame_ctx = Some(context);
    let mut sum = 0;
    for come in keys.chunks(COME) {
        let asked = columns[0].len();
        let held = &mut Arc::get_mut(&mut columns[0]).expect("no other holds it").values;
        held.extend_from_slice(come);
        let length = held.len();
        for idx in asked..length {
            let context = state.window_frame_ctx.as_mut().expect("a context");
            let last = &state.window_frame_range;
            let window = context.calculate_range(&columns, last, length, idx).expect("a window");
            let gone = state.offset_pruned_rows;
            sum = summed(sum, &(window.start + gone..window.end + gone));
            state.window_frame_range = window;
            state.last_calculated_index = idx;
        }
        let window = &state.window_frame_range;
        let limit = state.last_calculated_index.min(window.start).min(window.end);
        state.prune_state(limit);
        Arc::get_mut(&mut columns[0]).expect("no other holds it").values.drain(0..limit);
    }
    sum
}

fn timed(name: &str, count: usize, step: impl FnOnce() -> u64) {
    let start = Instant::now();
    let sum = step();
    eprintln!("{name}: {} ns", start.elapsed().as_nanos());
    println!("{name}: {count} windows checksum {sum}");
}

pub fn run(count: usize) {
    let keys: Vec<Option<i128>> = (0..count).map(|i| Some(i as i128 / 3 * 500)).collect();
    let frames = [
        (
            "rows between 5 preceding and current row",
            WindowFrame::new_bounds(WindowFrameUnits::Rows, preceding(5), WindowFrameBound::CurrentRow),
        ),
        (
            "range between 3000 preceding and 1000 following",
            WindowFrame::new_bounds(WindowFrameUnits::Range, preceding(3000), following(1000)),
        ),
        (
            "groups between 2 preceding and 1 preceding",
            WindowFrame::new_bounds(WindowFrameUnits::Groups, preceding(2), preceding(1)),
        ),
    ];
    for (name, frame) in frames {
        timed(name, count, || whole(context(&frame), &keys));
        timed("live", count, || live(context(&frame), &keys));
    }
}
