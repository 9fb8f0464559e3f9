// Stands in for the crate `arrow`: as much of it as the two files of the Rust lean on.

#[derive(Debug)]
pub struct ArrowError;

pub mod datatypes {
    use std::sync::Arc;

    #[derive(Debug, Clone, Copy, PartialEq, Eq)]
    pub enum DataType {
        UInt8,
        UInt32,
        UInt64,
        Int64,
    }

    pub type SchemaRef = Arc<Vec<DataType>>;
}

pub mod array {
    use crate::datatypes::DataType;
    use std::sync::Arc;

    // A column: each row's value, or none where it is null.
    #[derive(Debug, Clone, PartialEq)]
    pub struct Column {
        pub data_type: DataType,
        pub values: Vec<Option<i128>>,
    }

    impl Column {
        pub fn len(&self) -> usize {
            self.values.len()
        }

        pub fn is_empty(&self) -> bool {
            self.values.is_empty()
        }
    }

    pub type ArrayRef = Arc<Column>;
}

pub mod record_batch {
    use crate::array::ArrayRef;
    use crate::datatypes::SchemaRef;

    #[derive(Debug, Clone, PartialEq)]
    pub struct RecordBatch {
        pub schema: SchemaRef,
        pub columns: Vec<ArrayRef>,
    }

    impl RecordBatch {
        pub fn new_empty(schema: SchemaRef) -> RecordBatch {
            RecordBatch { schema, columns: Vec::new() }
        }

        pub fn schema(&self) -> SchemaRef {
            self.schema.clone()
        }

        pub fn num_rows(&self) -> usize {
            self.columns.first().map_or(0, |c| c.len())
        }
    }
}

pub mod compute {
    use crate::ArrowError;
    use crate::array::{ArrayRef, Column};
    use crate::datatypes::SchemaRef;
    use crate::record_batch::RecordBatch;
    use std::sync::Arc;

    #[derive(Debug, Clone, Copy, Default)]
    pub struct SortOptions {
        pub descending: bool,
        pub nulls_first: bool,
    }

    pub fn concat(arrays: &[&ArrayRef]) -> Result<ArrayRef, ArrowError> {
        let data_type = arrays.first().ok_or(ArrowError)?.data_type;
        let values = arrays.iter().flat_map(|a| a.values.iter().copied()).collect();
        Ok(Arc::new(Column { data_type, values }))
    }

    // No run here adds batches to one another.
    pub fn concat_batches<'a>(
        _schema: &SchemaRef,
        _batches: impl IntoIterator<Item = &'a RecordBatch>,
    ) -> Result<RecordBatch, ArrowError> {
        Err(ArrowError)
    }
}
