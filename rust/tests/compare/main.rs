//! The proved library against the independent model: random and damaged files, histories of calls on held plans, and
//! pairs asked from both ends; histories with and without their previews; gate windows. Seeded; PAMZOLIT_FILES and
//! PAMZOLIT_HISTORIES set the numbers of cases for a longer run.
#[path = "../model/mod.rs"]
mod model;
#[path = "../random/mod.rs"]
mod random;

mod both_ends;
mod calls;
mod files;
mod histories;
mod previews;
mod same;
mod windows;

fn cases(name: &str, usual: usize) -> usize {
    std::env::var(name).ok().and_then(|v| v.parse().ok()).unwrap_or(usual)
}
