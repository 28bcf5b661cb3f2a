//! The committed cases: the bench examples, then seeded cases of show and put back, then the edges
//! of sweeping, then seeded sweeps, then the edges of saved lines, then seeded views with many of
//! them, then the edges of padded texts, then seeded cases with many of them, then the same for
//! word orders. The product's `replay` answers them from a file, which is made from here.

use crate::cases::edge::Edge;
use crate::cases::{
    self, bench, order_edges, orders, padded_edges, pads, saved_edges, saves, sweep_edges, sweeps,
};
use crate::stream::Case;

pub const SEED: u64 = 20_071;

/// How many cases of show and put back are seeded.
pub const COUNT: usize = 4_000;

/// How many sweeps are seeded.
pub const SWEEPS: usize = 500;

/// How many put backs of views with many saved lines are seeded.
pub const SAVES: usize = 500;

/// How many shows and put backs over padded texts are seeded.
pub const PADS: usize = 400;

/// How many shows, put backs and sweeps over word orders are seeded.
pub const ORDERS: usize = 400;

pub fn cases() -> Vec<Case> {
    let examples = bench::examples().into_iter().map(|example| example.case);
    examples.chain(seeded()).chain(sweeps()).chain(saves()).chain(pads()).chain(orders()).collect()
}

pub fn seeded() -> Vec<Case> {
    cases::cases(SEED, COUNT)
}

pub fn sweeps() -> Vec<Case> {
    edges_then(sweep_edges::edges(), seeded_sweeps())
}

pub fn seeded_sweeps() -> Vec<Case> {
    sweeps::cases(SEED, SWEEPS)
}

pub fn saves() -> Vec<Case> {
    edges_then(saved_edges::edges(), seeded_saves())
}

pub fn seeded_saves() -> Vec<Case> {
    saves::cases(SEED, SAVES)
}

pub fn pads() -> Vec<Case> {
    edges_then(padded_edges::edges(), seeded_pads())
}

pub fn seeded_pads() -> Vec<Case> {
    pads::cases(SEED, PADS)
}

pub fn orders() -> Vec<Case> {
    edges_then(order_edges::edges(), seeded_orders())
}

pub fn seeded_orders() -> Vec<Case> {
    orders::cases(SEED, ORDERS)
}

fn edges_then(edges: Vec<Edge>, seeded: Vec<Case>) -> Vec<Case> {
    edges.into_iter().map(|edge| edge.case).chain(seeded).collect()
}
