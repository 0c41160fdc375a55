//! Stands in for the crate bumpalo: an allocator by name only, see the stand-in for allocator-api2.

use allocator_api2::alloc::Allocator;

#[derive(Debug, Default)]
pub struct Bump;

impl Bump {
    pub const fn new() -> Self {
        Self
    }
}

impl Allocator for &Bump {}
