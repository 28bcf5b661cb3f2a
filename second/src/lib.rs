//! The independent second program: document 01 and requests #101, #103, #104 and #106 over trees
//! that own their texts and standings.

pub mod calls;
pub mod cases;
pub mod committed;
pub mod demand3;
pub mod entry;
pub mod file;
pub mod lines;
pub mod master;
pub mod node_line;
pub mod program;
pub mod putting_back;
pub mod replay;
pub mod rules;
pub mod saved;
pub mod showing;
pub mod standing;
pub mod stream;
pub mod sweep_sentences;
pub mod sweeping;
pub mod text;
pub mod tree;
pub mod verdict;
pub mod view;
