//! In place of src/document.rs: the types that the compiled files name.
pub struct Document;

#[derive(Clone, Copy, Debug, PartialEq, Eq)]
pub enum DocValuesType {
    I64,
    F64,
    Keyword,
}

#[derive(Clone, Debug)]
pub enum FieldValue {
    Text(String),
    I64(i64),
    F64(f64),
}

#[derive(Clone, Copy, Debug, PartialEq, Eq)]
pub enum IndexOptions {
    None,
    DocsAndFreqs,
    DocsAndFreqsAndPositions,
}

impl IndexOptions {
    pub const fn is_indexed_without_positions(self) -> bool {
        matches!(self, Self::DocsAndFreqs)
    }
}

#[derive(Clone, Copy, Debug)]
pub struct FieldType {
    pub index_options: IndexOptions,
    pub doc_values: Option<DocValuesType>,
    pub omit_norms: bool,
}

impl FieldType {
    pub const fn is_indexed(self) -> bool {
        !matches!(self.index_options, IndexOptions::None)
    }
}
