//! The judge: seeded cases for the reading and the writing functions, and tls-parser's answers to
//! them in one text, so that another program can answer the same cases; and an account of what is
//! to be answered where Norrabist and tls-parser part.

pub mod account;
pub mod answer;
pub mod apart;
pub mod asked;
pub mod bytes;
pub mod case;
pub mod container;
pub mod count;
pub mod domain;
pub mod exactness;
pub mod extension;
pub mod generate;
pub mod made;
pub mod randoms;
pub mod rng;
pub mod rows;
pub mod sheet;
pub mod table;
pub mod text;
pub mod truncations;
pub mod values;
pub mod write;
