//! Refusals where the table of `docs/RULES.md`, "Refusals", must be read closely, each for a file made
//! by hand. The answer area has no byte, so refusal 11 has its case in all files with a member, and
//! must wait its turn.

use crate::common::{cleared, Link, Offer, Random};

const KIND_3: [u8; 8] = [3, 0, 0, 0, 0, 0, 0, 0];
const MEMBER_0: [u8; 8] = [2, 0, 0, 0, 0, 0, 0, 0];

fn link(a: usize, b: usize) -> [u8; 8] {
    Link::between(a, b, 1).record()
}

fn offer(member: usize, units: i64, price: i64) -> [u8; 8] {
    let offer = Offer {
        member,
        units,
        price,
    };
    offer.record()
}

fn idle(member: usize) -> [u8; 8] {
    offer(member, 0, 0)
}

/// The refusal of a file.
fn refused(records: &[[u8; 8]]) -> (u64, u64) {
    refused_bytes(&records.concat())
}

fn refused_bytes(file: &[u8]) -> (u64, u64) {
    cleared(file, 0, &mut Random::new(3)).expect_err("a refusal")
}

#[test]
fn the_length_comes_first() {
    assert_eq!(refused_bytes(&[2; 33_017]), (1, 0));
    assert_eq!(refused_bytes(&[2; 33_024]), (1, 0));
    assert_eq!(refused_bytes(&[2; 33_015]), (2, 0));
    assert_eq!(refused_bytes(&[3; 33_016]), (3, 0));
    assert_eq!(refused_bytes(&[3]), (2, 0));
}

#[test]
fn the_first_faulty_record_decides() {
    assert_eq!(refused(&[MEMBER_0, KIND_3]), (4, 0));
    assert_eq!(refused(&[KIND_3, MEMBER_0]), (3, 0));
    assert_eq!(refused(&[idle(3), idle(3), KIND_3]), (3, 2));
}

#[test]
fn links_count_for_members_but_not_for_offers() {
    assert_eq!(refused(&[]), (5, 0));
    assert_eq!(refused(&[link(1, 2), link(1, 2)]), (5, 0));
    assert_eq!(refused(&[idle(1), link(1, 2)]), (6, 2));
    assert_eq!(refused(&[idle(3)]), (6, 1));
}

#[test]
fn every_entry_counts_toward_the_64_repeated_or_not() {
    let mut offers: Vec<[u8; 8]> = (0..64).map(|units| offer(1, units, 0)).collect();
    offers.push(idle(1));
    assert_eq!(refused(&offers), (7, 1));
    assert_eq!(refused(&offers[1..]), (11, 16));
    assert_eq!(refused(&[offer(1, 3, 9); 65]), (7, 1));
    assert_eq!(refused(&[offer(1, 3, 9); 64]), (11, 16));
}

#[test]
fn a_repeated_offer_is_no_fault_and_hides_none() {
    assert_eq!(refused(&[idle(1), idle(1)]), (11, 16));
    assert_eq!(refused(&[idle(1), offer(1, 0, 9)]), (11, 16));
    let twice = [idle(1), idle(2), idle(1)];
    let ring = [link(1, 2), link(1, 2)];
    assert_eq!(refused(&[&twice[..], &ring[..]].concat()), (9, 4));
    assert_eq!(refused(&twice), (10, 2));
    assert_eq!(refused(&[&twice[..], &[idle(4)]].concat()), (6, 3));
}

#[test]
fn a_ring_comes_before_a_member_apart() {
    let closed = Link::between(2, 3, 0).record();
    assert_eq!(
        refused(&[link(2, 3), idle(1), idle(2), idle(3), closed]),
        (9, 4)
    );
    let links = [vec![idle(1), idle(2)], vec![link(1, 2); 4125]].concat();
    assert_eq!(refused(&links), (9, 3));
}

#[test]
fn the_lowest_member_apart_is_named() {
    assert_eq!(refused(&[link(2, 3), idle(1), idle(2), idle(3)]), (10, 2));
    assert_eq!(
        refused(&[link(1, 3), idle(1), idle(2), idle(3), idle(4)]),
        (10, 2)
    );
}

#[test]
fn a_short_area_comes_before_no_allocation() {
    assert_eq!(refused(&[offer(1, 5, 900)]), (11, 16));
}
