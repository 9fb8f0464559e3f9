// Stands in for the crate `datafusion_common`: as much of it as the two files of the Rust lean on.

use arrow::ArrowError;
use arrow::array::{ArrayRef, Column};
use arrow::datatypes::DataType;
use std::cmp::Ordering;
use std::fmt;
use std::sync::Arc;

#[derive(Debug)]
pub struct DataFusionError(pub String);

impl From<ArrowError> for DataFusionError {
    fn from(e: ArrowError) -> Self {
        DataFusionError(format!("{e:?}"))
    }
}

pub type Result<T, E = DataFusionError> = std::result::Result<T, E>;

#[macro_export]
macro_rules! internal_datafusion_err {
    ($($arg:tt)*) => { $crate::DataFusionError(format!($($arg)*)) };
}

#[macro_export]
macro_rules! internal_err {
    ($($arg:tt)*) => { Err($crate::internal_datafusion_err!($($arg)*)) };
}

#[macro_export]
macro_rules! plan_err {
    ($($arg:tt)*) => { Err($crate::internal_datafusion_err!($($arg)*)) };
}

#[derive(Debug, Clone, PartialEq, Eq, Hash)]
pub enum ScalarValue {
    UInt8(Option<u8>),
    UInt32(Option<u32>),
    UInt64(Option<u64>),
    Int64(Option<i64>),
}

use ScalarValue::{Int64, UInt8, UInt32, UInt64};

impl ScalarValue {
    pub fn data_type(&self) -> DataType {
        match self {
            UInt8(_) => DataType::UInt8,
            UInt32(_) => DataType::UInt32,
            UInt64(_) => DataType::UInt64,
            Int64(_) => DataType::Int64,
        }
    }

    // The value as a number, none where it is null.
    fn number(&self) -> Option<i128> {
        match self {
            UInt8(v) => v.map(i128::from),
            UInt32(v) => v.map(i128::from),
            UInt64(v) => v.map(i128::from),
            Int64(v) => v.map(i128::from),
        }
    }

    // A number as a value of a type, none where it does not fit.
    fn of(data_type: DataType, number: Option<i128>) -> Option<ScalarValue> {
        Some(match (data_type, number) {
            (DataType::UInt8, None) => UInt8(None),
            (DataType::UInt32, None) => UInt32(None),
            (DataType::UInt64, None) => UInt64(None),
            (DataType::Int64, None) => Int64(None),
            (DataType::UInt8, Some(n)) => UInt8(Some(n.try_into().ok()?)),
            (DataType::UInt32, Some(n)) => UInt32(Some(n.try_into().ok()?)),
            (DataType::UInt64, Some(n)) => UInt64(Some(n.try_into().ok()?)),
            (DataType::Int64, Some(n)) => Int64(Some(n.try_into().ok()?)),
        })
    }

    fn reckoned(&self, other: &Self, f: fn(i128, i128) -> i128) -> Result<ScalarValue> {
        if self.data_type() != other.data_type() {
            return plan_err!("{self:?} and {other:?} are of two types");
        }
        let sum = self.number().zip(other.number()).map(|(a, b)| f(a, b));
        Self::of(self.data_type(), sum).ok_or(DataFusionError("overflow".into()))
    }

    pub fn add_checked(&self, other: &Self) -> Result<ScalarValue> {
        self.reckoned(other, |a, b| a + b)
    }

    pub fn sub_checked(&self, other: &Self) -> Result<ScalarValue> {
        self.reckoned(other, |a, b| a - b)
    }

    // Asked only for a value less itself.
    pub fn sub(&self, other: &Self) -> Result<ScalarValue> {
        self.sub_checked(other)
    }

    pub fn is_null(&self) -> bool {
        self.number().is_none()
    }

    pub fn is_unsigned(&self) -> bool {
        !matches!(self, Int64(_))
    }

    pub fn new_zero(data_type: &DataType) -> Result<ScalarValue> {
        Self::of(*data_type, Some(0)).ok_or(DataFusionError("no zero".into()))
    }

    pub fn to_array_of_size(&self, size: usize) -> Result<ArrayRef> {
        let values = vec![self.number(); size];
        Ok(Arc::new(Column { data_type: self.data_type(), values }))
    }
}

impl TryFrom<&DataType> for ScalarValue {
    type Error = DataFusionError;

    fn try_from(data_type: &DataType) -> Result<Self> {
        Self::of(*data_type, None).ok_or(DataFusionError("no null".into()))
    }
}

impl PartialOrd for ScalarValue {
    fn partial_cmp(&self, other: &Self) -> Option<Ordering> {
        (self.data_type() == other.data_type()).then(|| self.number().cmp(&other.number()))
    }
}

impl fmt::Display for ScalarValue {
    fn fmt(&self, f: &mut fmt::Formatter) -> fmt::Result {
        match self.number() {
            Some(n) => write!(f, "{n}"),
            None => f.write_str("NULL"),
        }
    }
}

pub mod utils {
    use super::*;
    use arrow::compute::SortOptions;

    pub fn get_row_at_idx(columns: &[ArrayRef], idx: usize) -> Result<Vec<ScalarValue>> {
        columns
            .iter()
            .map(|c| match c.values.get(idx) {
                Some(v) => ScalarValue::of(c.data_type, *v)
                    .ok_or(DataFusionError("a key that does not fit".into())),
                None => plan_err!("no row {idx}"),
            })
            .collect()
    }

    pub fn compare_rows(
        x: &[ScalarValue],
        y: &[ScalarValue],
        options: &[SortOptions],
    ) -> Result<Ordering> {
        for ((l, r), o) in x.iter().zip(y).zip(options) {
            let side = if o.nulls_first { Ordering::Less } else { Ordering::Greater };
            let order = match (l.number(), r.number()) {
                (None, None) => Ordering::Equal,
                (None, Some(_)) => side,
                (Some(_), None) => side.reverse(),
                (Some(a), Some(b)) if o.descending => b.cmp(&a),
                (Some(a), Some(b)) => a.cmp(&b),
            };
            if order.is_ne() {
                return Ok(order);
            }
        }
        Ok(Ordering::Equal)
    }

    // From low to the first row below high that fails, else high; low where it is not below high.
    pub fn search_in_slice<F>(
        columns: &[ArrayRef],
        target: &[ScalarValue],
        compare: F,
        low: usize,
        high: usize,
    ) -> Result<usize>
    where
        F: Fn(&[ScalarValue], &[ScalarValue]) -> Result<bool>,
    {
        for idx in low..high {
            if !compare(&get_row_at_idx(columns, idx)?, target)? {
                return Ok(idx);
            }
        }
        Ok(low.max(high))
    }
}
