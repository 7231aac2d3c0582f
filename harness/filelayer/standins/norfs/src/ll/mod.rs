pub mod blocks;
pub mod objects;
