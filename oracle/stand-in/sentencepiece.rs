// Stands in for the module of this name, of which only the type is wanted.
pub struct SentencePieceBPE;
