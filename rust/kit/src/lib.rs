//! The desk's program `kit`: it reads, writes and draws cards and sheets. Every answer about them comes from the proved calls of
//! `kit_planner`.
pub mod args;
pub mod batch;
pub mod card;
pub mod commands;
pub mod fields;
pub mod files;
pub mod help;
pub mod json;
pub mod kinds;
pub mod names;
pub mod paint;
pub mod picture;
pub mod svg;
pub mod text;
pub mod tree;
pub mod way;
pub mod why;
