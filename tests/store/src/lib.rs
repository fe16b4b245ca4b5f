//! The proved store (`bindings::store`) and beside it a plain model (`model`) for tests to compare with. The model is code of its own after
//! document 01; file headers and equations are the second program's. Where 01 leaves a library call open (which local refusal a place gets,
//! that completing looks at the items alone) the model follows the contracts, so there the tests compare the compiled code with its contracts
//! and say nothing on whether the reading is right. `drafts` has the files and equations that the tests are made of.
pub mod drafts;
pub mod model;
