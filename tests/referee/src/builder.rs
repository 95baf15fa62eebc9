//! Builds images for tests, with what the calls must answer about them known by construction.
//!
//! `plan` describes an image and builds it, `random` makes random plans, `fault` alters a built image so that
//! it has one known fault, and `pages` helps to write images by hand. This is test support: it may panic on a
//! plan that makes no sense.

pub mod fault;
pub mod pages;
pub mod plan;
pub mod random;
