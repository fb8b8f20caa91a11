//! What stands in a lent index, read plainly.
use harness::case::Case;
use harness::query::Node;

/// The postings of a leaf.
pub fn postings(case: &Case, leaf: u32) -> std::slice::Chunks<'_, u32> {
    let leaf = &case.leaves[4 * leaf as usize..];
    case.postings[3 * leaf[1] as usize..][..3 * leaf[2] as usize].chunks(3)
}

/// The starts of a phrase in a document, each as often as every term has it.
pub fn starts(case: &Case, phrase: &Node, document: u32) -> Vec<i64> {
    let mut common: Option<Vec<i64>> = None;
    for term in &phrase.children {
        let [leaf, offset, ..] = term.values;
        let mut run = postings(case, leaf);
        let Some(posting) = run.find(|p| p[0] == document) else {
            return vec![];
        };
        let positions = &case.positions[posting[2] as usize..][..posting[1] as usize];
        let own = positions.iter().map(|p| i64::from(*p) - i64::from(offset));
        let mut own: Vec<_> = own.collect();
        if let Some(mut others) = common {
            own.retain(|start| {
                let at = others.iter().position(|other| other == start);
                at.map(|at| others.remove(at)).is_some()
            });
        }
        common = Some(own);
    }
    common.unwrap()
}

/// A document's value in a column, as bits.
pub fn value(case: &Case, column: u32, document: u32) -> Option<u64> {
    let v = &case.values[3 * (column * case.n + document) as usize..];
    (v[0] == 1).then(|| u64::from(v[1]) | u64::from(v[2]) << 32)
}

/// Whether a range, given by the values of its record, holds a document: neither its value nor a
/// given end is NaN.
pub fn in_range(case: &Case, range: [u32; 6], document: u32) -> bool {
    let [column, kinds, a, b, c, d] = range;
    let float = case.columns[column as usize] == 1;
    let no_number = |low: u32, high: u32| {
        let [exponent, digits] = [high >> 20 & 0x7ff, high << 12 | low];
        float && exponent == 0x7ff && digits != 0
    };
    let failed = value(case, column, document)
        .is_some_and(|bits| no_number(bits as u32, (bits >> 32) as u32));
    let by_end = kinds % 3 > 0 && no_number(a, b) || kinds / 3 > 0 && no_number(c, d);
    !failed && !by_end && between(case, range, document)
}

/// Whether a document's value lies between the ends of a range, NaN in its place in the order.
pub fn between(case: &Case, range: [u32; 6], document: u32) -> bool {
    let [column, kinds, a, b, c, d] = range;
    let Some(bits) = value(case, column, document) else {
        return false;
    };
    let float = case.columns[column as usize] == 1;
    let [at, lower, upper] = [
        bits,
        u64::from(a) | u64::from(b) << 32,
        u64::from(c) | u64::from(d) << 32,
    ]
    .map(|bits| place(float, bits));
    let above = [true, at >= lower, at > lower][(kinds % 3) as usize];
    let below = [true, at <= upper, at < upper][(kinds / 3) as usize];
    above && below
}

/// Where a value stands in its column's order: as i64, or in IEEE 754's totalOrder, in which the
/// patterns with a sign stand before all others and the other way round.
pub fn place(float: bool, bits: u64) -> i64 {
    match float && bits >> 63 == 1 {
        true => i64::MIN + (u64::MAX - bits) as i64,
        false => bits as i64,
    }
}
