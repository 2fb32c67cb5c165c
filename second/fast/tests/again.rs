//! Fast and second say it again.

use compare::{again, Sides, FAST};

const SIDES: Sides = Sides(&[FAST]);

#[test]
fn every_cut() {
    again::every_cut(SIDES, 60);
}

#[test]
fn every_byte() {
    again::every_byte(SIDES, 10);
}

#[test]
fn every_area() {
    again::every_area(SIDES, 150);
}

#[test]
fn wrong_lengths() {
    again::wrong_lengths(SIDES, 20);
}
