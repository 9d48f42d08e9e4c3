//! An independent program for the calls of document 01 and of requests W1, W2 and W4 to W8, written from their text by an ordinary method: hash
//! maps of edges, vectors that grow. The proved library is tested and timed against it.
pub mod bases;
pub mod calls;
pub mod lines;
pub mod pieces;
pub mod proper;
pub mod random;
pub mod texts;
