//! The words `say`, `explain` and `draw` of ./run. Nothing here is proved, and nothing here decides an answer: answers are those of the proved
//! programs `passday`, `classday`, `desk` and `equations` and of the proved library (package `bindings`). What these tools say of a script is said only
//! if the script, played on the library, is answered byte for byte as `passday` answers it, or `classday` where the script asks why.
pub mod blame;
pub mod bytes;
pub mod data;
pub mod draft;
pub mod explain;
pub mod header;
pub mod lesson;
pub mod names;
pub mod page;
pub mod play;
pub mod programs;
pub mod say;
pub mod script;
pub mod sheet;
pub mod state;
pub mod upload;
pub mod why;
pub mod words;
