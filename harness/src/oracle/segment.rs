//! In place of src/index/segment.rs and reader.rs: one segment over what a case lends. A text
//! field is named by its number ("3"), a column by "c" and its number, a term by its leaf's number.
use crate::case::Case;
use crate::codec::postings_reader::{Posting, PostingsEnum};
use crate::codec::store::Out;
use crate::document::{DocValuesType, Document, IndexOptions};
use crate::error::Result;
use crate::failed::{failed, joined};
use crate::index::doc_values::{NumericIndex, SortValue};
use crate::index::{CollectionStats, FieldInfo, FieldInfos, LiveDocs, Term, TermStats};
use std::ops::Bound;
use std::sync::Arc;

struct Field {
    average_bits: u32,
    norms: Option<Vec<u8>>,
    positions: bool,
}

struct Leaf {
    field: u32,
    first: usize,
    number: usize,
    idf_bits: u32,
}

/// The leaf's number.
pub struct TermMeta(usize);

pub struct SegmentReader {
    max_doc: u32,
    fields: Vec<Field>,
    leaves: Vec<Leaf>,
    postings: Vec<Posting>,
    positions: Vec<u32>,
    live: Option<LiveDocs>,
    infos: FieldInfos,
    numeric: Vec<NumericIndex>,
}

/// The term that names a leaf.
pub fn leaf_term(case: &Case, leaf: u32) -> Term {
    let field = case.leaves[4 * leaf as usize];
    Term::from_bytes(field.to_string(), leaf.to_le_bytes())
}

pub fn column_name(column: u32) -> String {
    format!("c{column}")
}

/// A value or range end of a column from its bits. The source orders NaN as it orders numbers, so it
/// is given none.
pub fn sort_value(column_kind: u32, bits: u64) -> SortValue {
    assert!(!failed(column_kind, bits), "a NaN for the Rust");
    match column_kind {
        0 => SortValue::I64(bits as i64),
        _ => SortValue::F64(f64::from_bits(bits)),
    }
}

/// A column as the source holds it; a reading that failed is absent there (request 2026-03).
pub fn numeric_index(case: &Case, column: usize) -> NumericIndex {
    let (n, kind) = (case.n as usize, case.columns[column]);
    let records = &case.values[3 * n * column..3 * n * (column + 1)];
    let value = |v: &[u32]| {
        let bits = joined(v[1], v[2]);
        (v[0] == 1 && !failed(kind, bits)).then(|| sort_value(kind, bits))
    };
    let values: Vec<_> = records.chunks(3).map(value).collect();
    NumericIndex::new(&values)
}

/// Norm bytes are packed by the fields that have norms.
fn fields(case: &Case) -> Vec<Field> {
    let mut norms = case.norms.as_slice();
    let mut fields = Vec::new();
    for f in case.fields.chunks(3) {
        let own = (f[1] == 1).then(|| {
            let own;
            (own, norms) = norms.split_at(case.n as usize);
            own.to_vec()
        });
        fields.push(Field {
            average_bits: f[0],
            norms: own,
            positions: f[2] == 1,
        });
    }
    fields
}

fn leaf(l: &[u32]) -> Leaf {
    Leaf {
        field: l[0],
        first: l[1] as usize,
        number: l[2] as usize,
        idf_bits: l[3],
    }
}

fn posting(p: &[u32]) -> Posting {
    Posting {
        doc: p[0],
        freq: p[1],
        first: p[2],
    }
}

/// The live words in the source's own file form: the number of documents, then the words.
fn live_docs(case: &Case) -> Option<LiveDocs> {
    let mut out = Out::new();
    out.write_vint(case.n);
    for word in &case.live {
        out.write_long(*word);
    }
    (!case.live.is_empty()).then(|| LiveDocs::decode(&out.buf, case.n, "live.rec").unwrap())
}

/// Text fields by their numbers, columns after them.
fn field_infos(case: &Case, fields: &[Field]) -> FieldInfos {
    let mut infos = FieldInfos::default();
    for (i, field) in fields.iter().enumerate() {
        let index_options = match field.positions {
            true => IndexOptions::DocsAndFreqsAndPositions,
            false => IndexOptions::DocsAndFreqs,
        };
        let info = FieldInfo {
            doc_values: None,
            name: i.to_string(),
            number: i as u32,
            index_options,
            has_norms: field.norms.is_some(),
        };
        infos.insert(info).unwrap();
    }
    for (i, kind) in case.columns.iter().enumerate() {
        let kinds = [DocValuesType::I64, DocValuesType::F64];
        let info = FieldInfo {
            doc_values: Some(kinds[*kind as usize]),
            name: column_name(i as u32),
            number: (fields.len() + i) as u32,
            index_options: IndexOptions::None,
            has_norms: false,
        };
        infos.insert(info).unwrap();
    }
    infos
}

impl SegmentReader {
    pub fn new(case: &Case) -> Self {
        let fields = fields(case);
        let columns = 0..case.columns.len();
        Self {
            max_doc: case.n,
            infos: field_infos(case, &fields),
            fields,
            leaves: case.leaves.chunks(4).map(leaf).collect(),
            postings: case.postings.chunks(3).map(posting).collect(),
            positions: case.positions.clone(),
            live: live_docs(case),
            numeric: columns.map(|column| numeric_index(case, column)).collect(),
        }
    }

    /// The leaf that a term names, where it has postings.
    fn leaf(&self, field: &str, term: &[u8]) -> Option<(usize, &Leaf)> {
        let number = u32::from_le_bytes(term.try_into().unwrap()) as usize;
        let leaf = &self.leaves[number];
        assert_eq!(leaf.field.to_string(), field);
        (leaf.number > 0).then_some((number, leaf))
    }

    // What the source calls.
    pub fn term_meta(&self, field: &str, term: &[u8]) -> Option<(FieldInfo, TermMeta)> {
        let (number, _) = self.leaf(field, term)?;
        Some((self.infos.get(field)?.clone(), TermMeta(number)))
    }
    pub fn postings(
        &self,
        field: &FieldInfo,
        meta: &TermMeta,
        needs_positions: bool,
    ) -> Box<PostingsEnum<'_>> {
        let leaf = &self.leaves[meta.0];
        assert!(!needs_positions || self.fields[field.number as usize].positions);
        PostingsEnum::new(
            &self.postings[leaf.first..leaf.first + leaf.number],
            needs_positions.then_some(&self.positions[..]),
        )
    }
    pub fn norms(&self, number: u32) -> Option<&[u8]> {
        self.fields[number as usize].norms.as_deref()
    }
    pub const fn live_docs(&self) -> Option<&LiveDocs> {
        self.live.as_ref()
    }
    pub const fn field_infos(&self) -> &FieldInfos {
        &self.infos
    }
    pub const fn max_doc(&self) -> u32 {
        self.max_doc
    }
    pub fn range_docs(
        &self,
        field: &str,
        lower: &Bound<SortValue>,
        upper: &Bound<SortValue>,
    ) -> Vec<u32> {
        let number = self.infos.get(field).unwrap().number as usize;
        self.numeric[number - self.fields.len()].range(lower, upper)
    }
}

pub struct DirectoryReader {
    segments: Vec<Arc<SegmentReader>>,
    doc_bases: Vec<u32>,
}

impl DirectoryReader {
    pub fn new(segment: Arc<SegmentReader>) -> Self {
        Self {
            segments: vec![segment],
            doc_bases: vec![0],
        }
    }
    pub fn document(&self, _: u32) -> Result<Document> {
        unreachable!()
    }
    pub fn segments(&self) -> &[Arc<SegmentReader>] {
        &self.segments
    }
    pub fn doc_bases(&self) -> &[u32] {
        &self.doc_bases
    }
    /// Carries the lent average where the source has a count (see sim.rs).
    pub fn collection_stats(&self, field: &str) -> Option<CollectionStats> {
        let segment = &self.segments[0];
        let number: usize = field.parse().unwrap();
        Some(CollectionStats {
            max_doc: u64::from(segment.max_doc),
            doc_count: 1,
            sum_total_term_freq: u64::from(segment.fields[number].average_bits),
            sum_doc_freq: 0,
        })
    }
    /// Carries the lent idf where the source has a count (see sim.rs).
    pub fn term_stats(&self, field: &str, term: &[u8]) -> Option<TermStats> {
        let (_, leaf) = self.segments[0].leaf(field, term)?;
        Some(TermStats {
            doc_freq: u64::from(leaf.idf_bits),
            total_term_freq: 0,
        })
    }
}
