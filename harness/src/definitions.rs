//! Rows for antt: what the definitions of crates/meaning, and the text of `hits`, must give for a
//! call of an entry, as equations that the checker computes. The answers are the Rust's, a
//! refusal's number, or, of what the Rust does not have, worked out here (Place) or the judge's (an
//! index made from tokens). With a NaN end they are the Rust's for the same order with the range's
//! ends crossed, and of Range the judge's. What narrowing must give is Rust's `as f32`.
mod entries;
pub mod narrowing;
mod place;
pub mod rows;
pub mod tokens;

use crate::case::Case;
use crate::refusal::calls::Lengths;
use narrowing::Step;
use std::fmt::{Display, Write};
use std::fs;
use std::io;
use std::path::{Path, PathBuf};

/// The head of the module: what a row computes.
const HEAD: &str = "\
use mathlib.Core.Path.{◌≡◌, refl}
use mathlib.Core.Bool.{true, false, cond}
use mathlib.Core.List.{List, [], ◌∷◌, ◌++◌, map}
use mathlib.Core.Option.{none, some}
use Prim.Native.Nat.{ℕ}
use lib.ListN.{replicate}
use lib.IntN.{ℤ, pos, negsuc}
use lib.Ieee.{nan, binary32, binary64, of_bits, to_bits}
use Rattle.meaning.specs.Ieee754.{narrow}
use Rattle.meaning.specs.Narrowing.{narrow_in_steps}
use Rattle.meaning.specs.Lent.{Index}
use Rattle.meaning.specs.Query.{query_tree}
use Rattle.meaning.specs.Range.{NumericRange}
use Rattle.meaning.specs.Scorer.{has_scorer}
use Rattle.meaning.specs.Cost.{cost}
use Rattle.meaning.specs.FullList.{ScoreDoc, full_list}
use Rattle.meaning.specs.CallRefusals.{Work}
use Rattle.meaning.specs.Entries.{search_answer, search_hits, page_answer, page_documents, page_scores, columns_only, range_answer, range_output, pick_answer, pick_hits, place_refusal, place_right, length_answer}
use Rattle.meaning.specs.Tokens.{Token, index_of_tokens, tokens_back}
use Rattle.meaning.specs.TokenRefusals.{Outputs, write_refusal, write_answer, written_norms, written_postings, written_positions, written_runs}
use Rattle.meaning.specs.HitsText.{files}
use Rattle.meaning.specs.HitsProgram.{search_text, hits_text}

abbrev work : ℕ → ℕ → ℕ → ℕ → Work
work a b c d = record { states = a; starts = b; other_starts = c; ranges = d }

abbrev range : ℕ → ℕ → ℕ → ℕ → NumericRange
range a b c d = record { column = a; kinds = b; lower = c; upper = d }

abbrev pairs : List ScoreDoc → List ℕ
pairs list = map (λ h. h.doc) list ++ map (λ h. to_bits binary32 h.score) list

abbrev costed : Index → List ℕ → List ℕ
costed ix q = cond (has_scorer ix (query_tree q)) (1 ∷ cost ix (query_tree q) ∷ []) (0 ∷ [])

abbrev outputs : ℕ → ℕ → ℕ → ℕ → Outputs
outputs a b c d = record { norms = a; postings = b; positions = c; runs = d }

abbrev token_words : List Token → List ℕ
token_words [] = []
token_words (t ∷ ts) = t.leaf ∷ t.document ∷ t.position ∷ token_words ts

abbrev read_back : ℕ → List ℕ → List ℕ → List ℕ → List ℕ
read_back n fields leaf_fields ws = token_words (tokens_back (index_of_tokens n fields ws leaf_fields [] [] [] []))
";

/// The entries, with the full list, the text of the program `hits`, and narrowing, by the step that
/// decides.
#[derive(Clone, Copy, Debug, PartialEq, Eq, PartialOrd, Ord)]
pub enum Entry {
    List,
    Search,
    Page,
    Place,
    Range,
    Pick,
    Length,
    Text,
    Write,
    Narrow(Step),
}

/// What an equation is about: the entry, whether the call is accepted, the definition, and which of
/// the row's equations it is.
pub type Kind = (Entry, bool, String, usize);

/// A call, and what its definitions must give. `ix` and `q` are what the case lends.
#[derive(Clone)]
pub struct Row {
    pub entry: Entry,
    /// the refusal's number, or 0
    pub number: u32,
    /// an accepted call that asks for NaN values, or has a NaN end
    pub failed_value: bool,
    pub failed_end: bool,
    case: Option<Case>,
    equations: Vec<(String, String)>,
}

impl Row {
    /// The row in antt, its names made by its place.
    fn text(&self, place: usize, opened: &str) -> String {
        let mut text = self.case.as_ref().map_or(String::new(), |c| lent(place, c));
        for (at, (call, expected)) in self.equations.iter().enumerate() {
            let call = call.replace("IX", &format!("ix-{place}"));
            let call = call.replace("QUERY", &format!("q-{place}"));
            let name = format!("row-{place}-{at}");
            text += &format!("\n{name} : {call} ≡ {expected}\nunfolding {opened}\n{name} = refl\n");
        }
        text
    }

    /// For each equation its kind, and the row with it alone but another answer.
    pub fn changed(&self) -> impl Iterator<Item = (Kind, Row)> {
        let equations = self.equations.iter().enumerate();
        equations.filter_map(|(at, (call, expected))| {
            let name = call.split_whitespace().next()?.to_string();
            let mut row = self.clone();
            row.equations = vec![(call.clone(), another(expected)?)];
            Some(((self.entry, self.number == 0, name, at), row))
        })
    }
}

/// Another answer: its last number changed. None where it is a list without numbers.
fn another(expected: &str) -> Option<String> {
    match expected {
        "true" => return Some("false".into()),
        "false" => return Some("true".into()),
        _ => {}
    }
    let end = expected.rfind(|c: char| c.is_ascii_digit())? + 1;
    let digits = |c: char| !c.is_ascii_digit();
    let start = expected[..end].rfind(digits).map_or(0, |before| before + 1);
    let number: u64 = expected[start..end].parse().ok()?;
    let [before, after] = [&expected[..start], &expected[end..]];
    Some(format!("{before}{}{after}", number ^ 1))
}

/// The lengths of the work buffers.
fn work(lent: &Lengths) -> String {
    let Lengths {
        states,
        starts,
        other_starts,
        ranges,
        ..
    } = lent;
    format!("(work {states} {starts} {other_starts} {ranges})")
}

/// The lent index and query of a row.
fn lent(number: usize, case: &Case) -> String {
    let mut text = format!(
        "\nabbrev ix-{number} : Index\nix-{number} = record {{ max_doc = {}",
        case.n
    );
    for (name, list) in [
        ("fields", words(&case.fields)),
        ("leaves", words(&case.leaves)),
        ("postings", words(&case.postings)),
        ("positions", words(&case.positions)),
        ("norms", words(&case.norms)),
        ("live", words(&case.live)),
        ("columns", words(&case.columns)),
        ("values", words(&case.values)),
    ] {
        write!(text, "; {name} = {list}").unwrap();
    }
    let query = words(&case.query);
    write!(
        text,
        " }}\n\nabbrev q-{number} : List ℕ\nq-{number} = {query}\n"
    )
    .unwrap();
    text
}

/// A list of numbers as antt writes it.
fn words<T: Display>(list: &[T]) -> String {
    let mut text = String::new();
    for word in list {
        write!(text, "{word} ∷ ").unwrap();
    }
    text + "[]"
}

/// A list of whole numbers, which may lie below 0.
fn integers(list: &[i64]) -> String {
    let mut text = String::new();
    for number in list {
        write!(text, "{} ∷ ", integer(*number)).unwrap();
    }
    text + "[]"
}

fn integer(number: i64) -> String {
    match number {
        0.. => format!("pos {number}"),
        _ => format!("negsuc {}", -(number + 1)),
    }
}

/// The operations of `lib.Ieee` that a row computes.
const IEEE: &str = "to_bits round units odd size span climb add sub mul div neg sum \
    of_fields of_bits of_int lt nan_bits";

/// The names that a row has to open: every definition of specs/ that is marked unfoldable, alone or
/// in a mutual block, and the operations of `lib.Ieee`.
fn opened(specs: &Path) -> io::Result<String> {
    let mut names: Vec<_> = IEEE.split(' ').map(|n| format!("lib.Ieee.{n}")).collect();
    names.push("lib.Count.count_trailing_zeros".into());
    let mut files: Vec<_> = fs::read_dir(specs)?.collect::<Result<_, _>>()?;
    files.sort_by_key(|file| file.file_name());
    for file in files {
        let module = file
            .path()
            .file_stem()
            .unwrap()
            .to_string_lossy()
            .into_owned();
        let mut mutual = false;
        for line in fs::read_to_string(file.path())?.lines() {
            let marked = match line.strip_prefix("unfoldable pub ") {
                Some(rest) => Some(rest),
                None if mutual => line.strip_prefix("  pub "),
                None => None,
            };
            mutual =
                line.starts_with("unfoldable mutual") || (mutual && !line.starts_with("  pub "));
            if let Some(name) = marked.and_then(|rest| rest.split_whitespace().next()) {
                names.push(format!("Rattle.meaning.specs.{module}.{name}"));
            }
        }
    }
    Ok(names.join(" "))
}

/// The definitions of the text of `hits`, which stand above crates/meaning: they come beside its
/// own, with nothing changed but the names of modules.
const ABOVE: [(&str, &str); 2] = [
    ("hits_text/specs/Text.antt", "HitsText"),
    ("hits/specs/Text.antt", "HitsProgram"),
];

/// A repository in `top` that has one crate, a copy of crates/meaning with the definitions above it:
/// the folder of that crate, where `rt check` runs.
pub fn write_crate(crates: &Path, top: &Path) -> io::Result<PathBuf> {
    let meaning = crates.join("meaning");
    let folder = top.join("crates/meaning");
    for part in ["src", "specs"] {
        fs::create_dir_all(folder.join(part))?;
        for file in fs::read_dir(meaning.join(part))? {
            let file = file?;
            fs::copy(file.path(), folder.join(part).join(file.file_name()))?;
        }
    }
    let specs = folder.join("specs");
    let mut root = fs::read_to_string(specs.join("Lib.antt"))?;
    for (path, name) in ABOVE {
        let text = fs::read_to_string(crates.join(path))?;
        let own = "Rattle.meaning.specs.HitsText";
        let text = text.replace("Rattle.hits_text.specs.Text", own);
        fs::write(specs.join(format!("{name}.antt")), text)?;
        writeln!(root, "pub mod {name}").unwrap();
    }
    fs::write(specs.join("Lib.antt"), root)?;
    fs::create_dir_all(folder.join("proofs"))?;
    fs::write(folder.join("proofs/Lib.antt"), "pub mod Rows\n")?;
    fs::write(top.join("crates.txt"), "meaning:\n")?;
    Ok(folder)
}

/// The rows as the crate's proofs.
pub fn write_rows(folder: &Path, rows: &[Row]) -> io::Result<()> {
    let opened = opened(&folder.join("specs"))?;
    let mut text = HEAD.to_string();
    for (place, row) in rows.iter().enumerate() {
        text += &row.text(place, &opened);
    }
    fs::write(folder.join("proofs/Rows.antt"), text)
}
