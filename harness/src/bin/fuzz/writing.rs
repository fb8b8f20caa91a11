//! The mappings of a call that writes an index.
use crate::mapping::Mapping;
use crate::memory::take;
use harness::fuzz::input::ROOM;
use harness::random::Random;
use harness::tokens::outputs::Outputs;
use harness::tokens::{Given, Tokens, Write, Writer};

pub struct Writing {
    fields: Mapping<u32>,
    tokens: Mapping<u32>,
    leaf_fields: Mapping<u32>,
    norms: Mapping<u8>,
    postings: Mapping<u32>,
    positions: Mapping<u32>,
    runs: Mapping<u32>,
    answer: Mapping<u64>,
}

impl Writing {
    pub fn new() -> Writing {
        Writing {
            fields: Mapping::new(ROOM),
            tokens: Mapping::new(ROOM),
            leaf_fields: Mapping::new(ROOM),
            norms: Mapping::new(ROOM),
            postings: Mapping::new(ROOM),
            positions: Mapping::new(ROOM),
            runs: Mapping::new(ROOM),
            answer: Mapping::new(ROOM),
        }
    }

    /// A call; afterwards the outputs hold what it left in them.
    pub fn call(
        &mut self,
        writer: &dyn Writer,
        tokens: &Tokens,
        outputs: &mut Outputs,
        random: &mut Random,
    ) -> u32 {
        self.fields.lend(&tokens.fields, random);
        self.tokens.lend(&tokens.tokens, random);
        self.leaf_fields.lend(&tokens.leaf_fields, random);
        self.put(outputs, random);
        let number = writer.write(self.write(tokens.n));
        self.take(outputs);
        number
    }

    fn write(&mut self, n: u32) -> Write<'_> {
        Write {
            given: Given {
                n,
                fields: self.fields.slice(),
                tokens: self.tokens.slice(),
                leaf_fields: self.leaf_fields.slice(),
            },
            norms: self.norms.slice_mut(),
            postings: self.postings.slice_mut(),
            positions: self.positions.slice_mut(),
            runs: self.runs.slice_mut(),
            answer: self.answer.slice_mut(),
        }
    }

    /// The outputs as they are before a call.
    fn put(&mut self, outputs: &Outputs, random: &mut Random) {
        self.norms.put(outputs.norms.held(), random);
        self.postings.put(outputs.postings.held(), random);
        self.positions.put(outputs.positions.held(), random);
        self.runs.put(outputs.runs.held(), random);
        self.answer.put(outputs.answer.held(), random);
    }

    /// What stands in them after it.
    fn take(&self, outputs: &mut Outputs) {
        take(&self.norms, &mut outputs.norms);
        take(&self.postings, &mut outputs.postings);
        take(&self.positions, &mut outputs.positions);
        take(&self.runs, &mut outputs.runs);
        take(&self.answer, &mut outputs.answer);
    }
}
