//! The proved build says it again.

mod common;
use common::*;
use compare::again;

#[test]
fn every_cut() {
    again::every_cut(SIDES, 30 * times());
}

#[test]
fn every_byte() {
    again::every_byte(SIDES, 10 * times());
}

#[test]
fn every_area() {
    again::every_area(SIDES, 150 * times());
}

#[test]
fn wrong_lengths() {
    again::wrong_lengths(SIDES, 20 * times());
}
