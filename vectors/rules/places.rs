//! How many binary places a log word has: 60, or as many as the variable PLACES says. Before request K10 it was 52.

use std::sync::atomic::{AtomicU32, Ordering::Relaxed};

static PLACES: AtomicU32 = AtomicU32::new(60);

pub fn places() -> u32 {
    PLACES.load(Relaxed)
}

/// From 1 to 60, for which document 02's bounds hold.
pub fn set(places: u32) {
    assert!((1..=60).contains(&places));
    PLACES.store(places, Relaxed);
}

pub fn set_by_environment() {
    if let Ok(places) = std::env::var("PLACES") {
        set(places.parse().expect("PLACES is a number"));
    }
}
