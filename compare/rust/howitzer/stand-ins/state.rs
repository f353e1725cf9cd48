//! Stand-in for the module file that is not among the documents: it only names the unchanged `vm_state.rs`.

mod vm_state;
pub use vm_state::{state_hash, State, StateWitness, VMStatus, STATE_WITNESS_SIZE};
