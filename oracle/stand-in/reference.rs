// Stands in for the module of this name: only the type is wanted.
pub mod state_machine {
    pub struct PretokenizerIter;
}
