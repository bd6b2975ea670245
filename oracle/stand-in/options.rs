// Stands in for the module of this name: only the types are wanted.
pub struct FastPretokenizerDispatch;
pub struct PretokenizerType;
