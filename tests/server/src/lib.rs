//! The proved server of `bindings` (`proved`) beside the second program of reference/ (`pair`): each call is made on both, and their answers,
//! packets and states are compared. `author` makes calls at random that mostly mean something, `history` runs and shortens them, `pages` is
//! a client that asks for new files page by page. For refusal 35, `oracle` says which facts a memory breaks, `sweep` changes every word of a
//! memory (`states` has those that are tried), and `broken` names changes of several words.
pub mod author;
pub mod broken;
pub mod call;
pub mod coverage;
pub mod history;
pub mod image;
pub mod oracle;
pub mod packets;
pub mod pages;
pub mod pair;
pub mod proved;
pub mod states;
pub mod sweep;
pub mod words;
