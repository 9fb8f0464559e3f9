// Runs a script of sittings over the Rust, and answers as `readback` does.
// It reads `clause`, of a frame as it is printed, and `reverse`; `open .. roll ..`; and of a sitting's commands
// those that `readback` granted: `line` and `file`, which it does not answer, and `window`.

use crate::window_state::{WindowAggState, WindowFrameContext};
use crate::{WindowFrame, WindowFrameBound, WindowFrameUnits};
use arrow::array::{ArrayRef, Column};
use arrow::compute::SortOptions;
use arrow::datatypes::DataType;
use datafusion_common::ScalarValue;
use std::io::{BufRead, Write};
use std::sync::Arc;

// The columns of a key kind. Plain keys have none; free RANGE frames then order by a constant.
fn columns_of(kind: &str) -> Vec<DataType> {
    match kind {
        "mark" => vec![DataType::Int64],
        "turn" => vec![DataType::UInt8, DataType::UInt32],
        _ => vec![DataType::UInt64],
    }
}

// An offset is of the key's type under RANGE.
fn offset(units: WindowFrameUnits, columns: &[DataType], n: u64) -> ScalarValue {
    match (units, columns[0]) {
        (WindowFrameUnits::Range, DataType::Int64) => ScalarValue::Int64(Some(n as i64)),
        _ => ScalarValue::UInt64(Some(n)),
    }
}

fn frame(text: &str, columns: &[DataType]) -> WindowFrame {
    let words: Vec<&str> = text.split(' ').collect();
    let units = match words[0] {
        "ROWS" => WindowFrameUnits::Rows,
        "RANGE" => WindowFrameUnits::Range,
        _ => WindowFrameUnits::Groups,
    };
    let bound = |n: &str, side: &str| {
        let value = match n {
            "UNBOUNDED" => ScalarValue::UInt64(None),
            _ => offset(units, columns, n.parse().expect("an offset")),
        };
        match side {
            "PRECEDING" => WindowFrameBound::Preceding(value),
            "FOLLOWING" => WindowFrameBound::Following(value),
            _ => WindowFrameBound::CurrentRow,
        }
    };
    let bound = |words: &[&str]| match words[0] {
        "CURRENT" => WindowFrameBound::CurrentRow,
        n => bound(n, words[1]),
    };
    WindowFrame::new_bounds(units, bound(&words[2..4]), bound(&words[5..7]))
}

fn frame_line(frame: &WindowFrame) -> String {
    let yes_no = |b| if b { "yes" } else { "no" };
    let ranged = WindowFrame::new_bounds(
        WindowFrameUnits::Range,
        frame.start_bound.clone(),
        frame.end_bound.clone(),
    );
    // what a free frame is, the Rust tells of RANGE frames alone
    let free = yes_no(ranged.can_accept_multi_orderby());
    format!("frame {frame} causal {} free {free}", yes_no(frame.is_causal()))
}

// Whether the Rust orders a frame by the columns of a key kind.
fn opened(frame: &WindowFrame, kind: &str) -> bool {
    let count = if kind == "plain" { 0 } else { columns_of(kind).len() };
    let mut order = vec![crate::expr::Sort; count];
    frame.regularize_order_bys(&mut order).is_ok()
}

struct Sitting {
    kind: String,
    columns: Vec<Column>,
    context: WindowFrameContext,
    state: WindowAggState,
}

impl Sitting {
    fn open(frame: WindowFrame, words: &[&str]) -> Sitting {
        let types = columns_of(words[1]);
        let options = SortOptions {
            descending: words[2] == "desc",
            nulls_first: words[3] == "first",
        };
        let frame = Arc::new(frame);
        let context = WindowFrameContext::new(frame, vec![options; types.len()]);
        let empty = |data_type| Column { data_type, values: Vec::new() };
        Sitting {
            kind: words[1].to_string(),
            columns: types.into_iter().map(empty).collect(),
            context,
            state: WindowAggState::new(&DataType::UInt64).expect("a state"),
        }
    }

    fn line(&mut self, key: &str) {
        let values: Vec<Option<i128>> = match (self.kind.as_str(), key) {
            ("plain", _) => vec![Some(1)],
            (_, "-") => vec![None; self.columns.len()],
            _ => key.split(':').map(|part| part.parse().ok()).collect(),
        };
        for (column, value) in self.columns.iter_mut().zip(values) {
            column.values.push(value);
        }
    }

    // Lines are counted from the first, as `readback` counts them; the Rust counts from the first kept one.
    fn window(&mut self, line: usize) -> (usize, usize) {
        let gone = self.state.offset_pruned_rows;
        let columns: Vec<ArrayRef> = self.columns.iter().cloned().map(Arc::new).collect();
        let length = columns[0].len();
        let last = self.state.window_frame_range.clone();
        let range = self.context.calculate_range(&columns, &last, length, line - gone);
        let range = range.expect("a window");
        self.state.window_frame_range = range.clone();
        self.state.last_calculated_index = line - gone;
        (range.start + gone, range.end + gone)
    }

    fn file(&mut self, line: usize) {
        let count = line - self.state.offset_pruned_rows;
        self.state.window_frame_ctx = Some(self.context.clone());
        self.state.prune_state(count);
        self.context = self.state.window_frame_ctx.take().expect("a context");
        for column in &mut self.columns {
            column.values.drain(0..count);
        }
    }
}

// Offsets that are read before a key kind is known are of the unsigned type.
fn read(clause: &str, kind: &str) -> WindowFrame {
    frame(clause, &columns_of(kind))
}

pub fn run() {
    let mut out = std::io::BufWriter::new(std::io::stdout());
    let mut clause = String::new();
    let mut sitting: Option<Sitting> = None;
    for line in std::io::stdin().lock().lines() {
        let line = line.expect("a line");
        let words: Vec<&str> = line.split(' ').collect();
        let answer = match (words[0], &mut sitting) {
            ("clause", _) => {
                clause = line["clause ".len()..].to_string();
                frame_line(&read(&clause, "plain"))
            }
            ("reverse", _) => {
                let reversed = read(&clause, "plain").reverse();
                clause = reversed.to_string();
                frame_line(&reversed)
            }
            ("open", _) => {
                let frame = read(&clause, words[1]);
                if opened(&frame, words[1]) {
                    sitting = Some(Sitting::open(frame, &words));
                    format!("open {}", words[1])
                } else if frame.units == WindowFrameUnits::Range {
                    "refused 7 place 0 layer 4".to_string()
                } else {
                    "refused 8 place 0 layer 4".to_string()
                }
            }
            ("window", Some(s)) => {
                let (start, end) = s.window(words[1].parse().expect("a line"));
                format!("window {start} {end}")
            }
            ("line", Some(s)) => {
                s.line(words[1]);
                continue;
            }
            ("file", Some(s)) => {
                s.file(words[1].parse().expect("a line"));
                continue;
            }
            _ => continue,
        };
        writeln!(out, "{answer}").expect("output");
    }
}
