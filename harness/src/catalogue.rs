//! A small index, built from leaves given as lists of documents, frequencies or positions.
use crate::case::Case;
use crate::query::Node;

/// The lent lists so far; every method gives back the number of what it adds.
#[derive(Clone, Debug, Default)]
pub struct Catalogue {
    case: Case,
}

impl Catalogue {
    pub fn new(n: u32) -> Catalogue {
        let case = Case {
            n,
            ..Case::default()
        };
        Catalogue { case }
    }

    /// A field of average length 1, without norms or positions.
    pub fn field(&mut self) -> u32 {
        self.field_with(1.0, None, false)
    }

    /// A field of average length 1 with positions, without norms.
    pub fn field_with_positions(&mut self) -> u32 {
        self.field_with(1.0, None, true)
    }

    pub fn field_with(&mut self, average: f32, norms: Option<&[u8]>, positions: bool) -> u32 {
        let flags = [u32::from(norms.is_some()), u32::from(positions)];
        self.case.fields.push(average.to_bits());
        self.case.fields.extend(flags);
        self.case.norms.extend(norms.unwrap_or_default());
        (self.case.fields.len() / 3 - 1) as u32
    }

    /// A leaf with idf 1 that stands once in each of the documents; no positions.
    pub fn leaf(&mut self, field: u32, documents: &[u32]) -> u32 {
        let once: Vec<_> = documents.iter().map(|d| (*d, 1)).collect();
        self.leaf_of_frequencies(field, 1.0, &once)
    }

    /// A leaf given as (document, frequency); no positions.
    pub fn leaf_of_frequencies(&mut self, field: u32, idf: f32, run: &[(u32, u32)]) -> u32 {
        let postings: Vec<_> = run.iter().map(|&(d, f)| [d, f, 0]).collect();
        self.leaf_of_postings(field, idf, &postings)
    }

    /// A leaf given as (document, positions).
    pub fn leaf_of_positions(&mut self, field: u32, idf: f32, run: &[(u32, &[u32])]) -> u32 {
        let mut postings = Vec::new();
        for &(document, positions) in run {
            let first = self.case.positions.len() as u32;
            postings.push([document, positions.len() as u32, first]);
            self.case.positions.extend(positions);
        }
        self.leaf_of_postings(field, idf, &postings)
    }

    fn leaf_of_postings(&mut self, field: u32, idf: f32, postings: &[[u32; 3]]) -> u32 {
        let first = (self.case.postings.len() / 3) as u32;
        let leaf = [field, first, postings.len() as u32, idf.to_bits()];
        self.case.leaves.extend(leaf);
        self.case.postings.extend(postings.as_flattened());
        (self.case.leaves.len() / 4 - 1) as u32
    }

    pub fn column_of_i64(&mut self, values: &[Option<i64>]) -> u32 {
        let bits: Vec<_> = values.iter().map(|v| v.map(|v| v as u64)).collect();
        self.column(0, &bits)
    }

    /// A column of f64 values given as bits, so that every NaN can be told.
    pub fn column_of_f64(&mut self, bits: &[Option<u64>]) -> u32 {
        self.column(1, bits)
    }

    fn column(&mut self, kind: u32, values: &[Option<u64>]) -> u32 {
        let record = |value: &Option<u64>| {
            let bits = value.unwrap_or(0);
            let present = u32::from(value.is_some());
            [present, bits as u32, (bits >> 32) as u32]
        };
        self.column_of_words(kind, &values.iter().flat_map(record).collect::<Vec<_>>())
    }

    /// A column of a kind, given as the words of its records, so that an absent value has bits too.
    pub fn column_of_words(&mut self, kind: u32, values: &[u32]) -> u32 {
        self.case.columns.push(kind);
        self.case.values.extend(values);
        (self.case.columns.len() - 1) as u32
    }

    /// Clears a document's live bit.
    pub fn kill(&mut self, document: u32) {
        self.case.withdraw(document);
    }

    /// The case of this index and a query.
    pub fn case(&self, k: u32, t: u32, query: &Node) -> Case {
        Case {
            k,
            t,
            ..self.case.with_query(query.words())
        }
    }
}
