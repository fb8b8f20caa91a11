//! A case: what a caller lends to Search, and its ten files.
use std::fs;
use std::io;
use std::path::Path;

/// N, k, t and the lent lists, in document 01's records.
#[derive(Clone, Debug, Default, PartialEq, Eq)]
pub struct Case {
    pub n: u32,
    pub k: u32,
    pub t: u32,
    pub fields: Vec<u32>,
    pub leaves: Vec<u32>,
    pub postings: Vec<u32>,
    pub positions: Vec<u32>,
    pub norms: Vec<u8>,
    pub live: Vec<u64>,
    pub columns: Vec<u32>,
    pub values: Vec<u32>,
    pub query: Vec<u32>,
}

/// The longest file that the program `hits` takes.
pub const FILE_LIMIT: usize = 65_536;

impl Case {
    /// The lists that the checks read: of norms and live words they look at the length alone.
    pub fn words(&self) -> [&[u32]; 7] {
        [
            &self.fields,
            &self.leaves,
            &self.postings,
            &self.positions,
            &self.columns,
            &self.values,
            &self.query,
        ]
    }

    /// The case in the ten files of a folder. What the program `hits` refuses with 0 is an error
    /// that says why.
    pub fn read_folder(folder: &Path) -> Result<Case, String> {
        let run = words(folder, "run.rec")?;
        let &[n, k, t] = run.as_slice() else {
            return Err("run.rec: not three words".into());
        };
        Ok(Case {
            n,
            k,
            t,
            fields: words(folder, "fields.rec")?,
            leaves: words(folder, "leaves.rec")?,
            postings: words(folder, "postings.rec")?,
            positions: words(folder, "positions.rec")?,
            norms: bytes(folder, "norms.rec")?,
            live: long_words(folder, "live.rec")?,
            columns: words(folder, "columns.rec")?,
            values: words(folder, "values.rec")?,
            query: words(folder, "query.rec")?,
        })
    }

    /// Writes the ten files into a folder, which is made where it is missing.
    pub fn write_folder(&self, folder: &Path) -> io::Result<()> {
        fs::create_dir_all(folder)?;
        let live: Vec<u8> = self.live.iter().flat_map(|w| w.to_le_bytes()).collect();
        fs::write(folder.join("norms.rec"), &self.norms)?;
        fs::write(folder.join("live.rec"), live)?;
        let run = [self.n, self.k, self.t];
        for (name, words) in [
            ("run.rec", &run[..]),
            ("fields.rec", &self.fields),
            ("leaves.rec", &self.leaves),
            ("postings.rec", &self.postings),
            ("positions.rec", &self.positions),
            ("columns.rec", &self.columns),
            ("values.rec", &self.values),
            ("query.rec", &self.query),
        ] {
            let bytes: Vec<u8> = words.iter().flat_map(|w| w.to_le_bytes()).collect();
            fs::write(folder.join(name), bytes)?;
        }
        Ok(())
    }

    /// The same index, k and t with another query.
    pub fn with_query(&self, query: Vec<u32>) -> Case {
        Case {
            query,
            ..self.clone()
        }
    }

    /// Whether the live words say that a document is live.
    pub fn is_live(&self, document: u32) -> bool {
        let word = (document / 64) as usize;
        self.live.is_empty() || self.live[word] >> (document % 64) & 1 == 1
    }

    /// Clears a document's live bit, where the words have one. Where none are lent, as many as N
    /// asks for are written first, all ones.
    pub fn withdraw(&mut self, document: u32) {
        if self.live.is_empty() {
            self.live = vec![u64::MAX; self.n.div_ceil(64) as usize];
        }
        if let Some(word) = self.live.get_mut((document / 64) as usize) {
            *word &= !(1 << (document % 64));
        }
    }

    /// The same case with a document's live bit cleared.
    pub fn withdrawn(&self, document: u32) -> Case {
        let mut changed = self.clone();
        changed.withdraw(document);
        changed
    }
}

fn bytes(folder: &Path, name: &str) -> Result<Vec<u8>, String> {
    let bytes = fs::read(folder.join(name)).map_err(|e| format!("{name}: {e}"))?;
    if bytes.len() > FILE_LIMIT {
        return Err(format!("{name}: longer than {FILE_LIMIT} bytes"));
    }
    Ok(bytes)
}

fn words(folder: &Path, name: &str) -> Result<Vec<u32>, String> {
    let bytes = bytes(folder, name)?;
    let (words, rest) = bytes.as_chunks::<4>();
    if !rest.is_empty() {
        return Err(format!("{name}: not of whole words"));
    }
    Ok(words.iter().map(|w| u32::from_le_bytes(*w)).collect())
}

fn long_words(folder: &Path, name: &str) -> Result<Vec<u64>, String> {
    let bytes = bytes(folder, name)?;
    let (words, rest) = bytes.as_chunks::<8>();
    if !rest.is_empty() {
        return Err(format!("{name}: not of whole words"));
    }
    Ok(words.iter().map(|w| u64::from_le_bytes(*w)).collect())
}
