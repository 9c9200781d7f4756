//! What the stand-in decides, and a trap of the original that document 01 names. (The doc examples of the three files run
//! as doc tests.)

use std::num::NonZeroUsize;
use triple_arena::traits::*;
use triple_arena::utils::traits::{NonZeroInxGenericStack, PtrInx};
use triple_arena::utils::{ArenaSlot, PtrNoGen};
use triple_arena::{SurjectArena, ptr_struct};

ptr_struct!(P0);

type A = SurjectArena<P0, u64, u64>;

fn slots(a: &A, p: P0) -> Vec<usize> {
    let ring = a.iter_surject(p).unwrap();
    ring.map(|(p, _, _)| PtrInx::try_into_usize(p.inx()).unwrap().get()).collect()
}

fn sound(a: &A) {
    A::_check_invariants(a).unwrap();
}

#[test]
fn slots_and_generations() {
    let mut a = A::with_min_capacity_separated(3, 2).unwrap();
    let p = [10, 11, 12].map(|t| a.insert_surject(t, t));
    assert_eq!(format!("{p:?}"), "[P0[1](2), P0[2](2), P0[3](2)]");
    // the slot freed last is taken first
    assert_eq!(a.remove_element(p[0]).allow(), Some((10, Some(10))));
    assert_eq!(a.remove_element(p[2]).allow(), Some((12, Some(12))));
    sound(&a);
    let q = [20, 21].map(|t| a.insert(p[1], t));
    assert_eq!(format!("{q:?}"), "[P0[3](4), P0[1](4)]");
    sound(&a);
    // a cleared arena begins at slot 1, one generation higher
    a.clear().allow();
    assert_eq!(format!("{:?}", a.insert_surject(30, 30)), "P0[1](5)");
    sound(&a);
}

#[test]
fn capacity_is_what_was_asked() {
    let mut a = A::with_min_capacity_separated(2, 1).unwrap();
    let p = a.insert_surject_within_capacity(1, 1).unwrap();
    assert!(a.insert_surject_within_capacity(2, 2).is_err());
    assert!(a.insert_within_capacity(p, 3).is_ok());
    assert!(a.insert_within_capacity(p, 4).is_err());
}

#[test]
fn the_side_of_next_to() {
    let mut a = A::new();
    let p = a.insert_surject(1, 1);
    a.insert(p, 2);
    a.insert(p, 3);
    let ring = if cfg!(feature = "before") { [1, 2, 3] } else { [1, 3, 2] };
    assert_eq!(slots(&a, p), ring);
    sound(&a);
}

#[test]
fn compression_orders_by_lowest_slot() {
    let mut a = A::new();
    let p = [1, 2, 3, 4].map(|t| a.insert_surject(t, 10 * t));
    let _ = a.union(p[3], p[1]).unwrap();
    a.remove_element(p[0]).allow();
    a.compress_canonical(false).allow();
    sound(&a);
    // 2 and 4 are one run under 40, 3 is alone
    let all: Vec<_> = a.iter_combined().map(|(p, t, s)| (format!("{p:?}"), *t, *s)).collect();
    let expected = [("P0[1](4)", 2, 40), ("P0[2](4)", 4, 40), ("P0[3](4)", 3, 30)];
    assert_eq!(all, expected.map(|(p, t, s)| (p.to_owned(), t, s)));
    assert_eq!(slots(&a, a.find_first_inx_ptr().unwrap()), [1, 2]);
    a.compress_canonical(true).allow();
    assert_eq!(format!("{:?}", a.find_first_inx_ptr().unwrap()), "P0[1](2)");
}

/// Of `compress_with` the text shows the shared side: values keep their order. The links' side is the stand-in's.
#[test]
fn compress_with_keeps_the_order_of_slots() {
    let mut a = A::new();
    let p = [1, 2, 3, 4].map(|t| a.insert_surject(t, 10 * t));
    let q = a.insert(p[2], 5);
    a.remove_element(p[1]).allow();
    // slot 2 goes to the run of slot 4, the shared slot to a run that begins in slot 6
    a.insert(p[3], 6);
    a.insert_surject(7, 70);
    a.remove_element(p[0]).allow();
    let mut told = vec![];
    a.compress_with(false, |old, t, new| told.push(format!("{old:?} {t} {new:?}"))).allow();
    sound(&a);
    let expected = ["P0[2](3) 6 P0[1](5)", "P0[3](2) 3 P0[2](5)", "P0[4](2) 4 P0[3](5)", "P0[5](2) 5 P0[4](5)"];
    assert_eq!(told[..4], expected);
    assert_eq!(told[4..], ["P0[6](3) 7 P0[5](5)"]);
    assert!(a.get(q).is_none());
    assert_eq!(a.shared_vals().copied().collect::<Vec<_>>(), [70, 30, 40]);
    assert_eq!(slots(&a, a.find_first_inx_ptr().unwrap()), [1, 3]);
    a.compress_with(true, |_, t, _| *t += 100).allow();
    assert_eq!(a.iter_combined().map(|(_, t, _)| *t).collect::<Vec<_>>(), [106, 103, 104, 105, 107]);
    assert_eq!(format!("{:?}", a.find_first_inx_ptr().unwrap()), "P0[1](2)");
}

/// `_check_surjects` never compares class entries along a ring: two rings of two, each with one frame of either class, pass
/// it. Here they are refused 2.
#[test]
fn mixed_rings_pass_the_original_check() {
    let mut a = A::new();
    let (p, q) = (a.insert_surject(1, 100), a.insert_surject(2, 200));
    let (p1, q1) = (a.insert(p, 11), a.insert(q, 22));
    let class = |a: &mut A, p: P0, set| {
        let inx: NonZeroUsize = p.inx();
        // Safety: the test breaks the soft invariants on purpose
        let ArenaSlot::Allocated(_, link) = unsafe { a.backing_mut() }.0.get_mut(inx).unwrap() else { unreachable!() };
        std::mem::replace(&mut link.t.p_shared, set)
    };
    let placeholder = PtrNoGen::<P0>::invalid();
    let class_p = class(&mut a, p1, placeholder);
    let class_q = class(&mut a, q1, class_p);
    class(&mut a, p1, class_q);
    assert_eq!(A::_check_invariants(&a), Ok(()));
    assert_eq!((a.get_shared(p), a.get_shared(p1)), (Some(&100), Some(&200)));
}

/// A clone chains free slots anew, lowest first; a copy in every slot gives the next frame the slot that the original gives it.
#[test]
fn a_clone_takes_other_slots_and_a_copy_the_same() {
    let mut a = A::new();
    let p: Vec<P0> = (1..=4).map(|n| a.insert_surject(n, 100 * n)).collect();
    for k in [0, 2] {
        a.remove_element(p[k]).allow();
    }
    let (mut clone, mut copy) = (a.clone(), a.exact_copy());
    assert_eq!(A::_check_invariants(&copy), Ok(()));
    let next = |a: &mut A| a.insert_surject(9, 900);
    assert_eq!((next(&mut a), next(&mut a)), (next(&mut copy), next(&mut copy)));
    assert_eq!(next(&mut clone).inx(), p[0].inx());
    assert_eq!(
        a.iter_combined().map(|(p, t, s)| (p, *t, *s)).collect::<Vec<_>>(),
        copy.iter_combined().map(|(p, t, s)| (p, *t, *s)).collect::<Vec<_>>()
    );
}

/// `clone_from_with` keeps pointers and the generation, makes room up to the last slot in use and no more, and chains free slots anew,
/// lowest first. Of the text is that the elements come first and what is reserved; the chain and the generation are the stand-in's.
#[test]
fn a_copy_by_clone_from_with() {
    let mut a = A::with_min_capacity_separated(9, 9).unwrap();
    let p: Vec<P0> = (1..=6).map(|n| a.insert_surject(n, 100 * n)).collect();
    for k in [1, 5, 0] {
        a.remove_element(p[k]).allow();
    }
    let _ = a.union(p[2], p[3]).unwrap();
    let mut copy = A::with_min_capacity_separated(2, 2).unwrap();
    let old = copy.insert_surject(77, 77);
    copy.clone_from_with(&a, |_, t| *t, |_, s| *s).unwrap();
    sound(&copy);
    assert_eq!((copy.capacity(), copy.capacity_shared()), (5, 5));
    let all = |a: &A| a.iter_combined().map(|(p, t, s)| (p, *t, *s)).collect::<Vec<_>>();
    assert_eq!(all(&copy), all(&a));
    assert_eq!(slots(&copy, p[3]), slots(&a, p[3]));
    assert!(copy.get(old).is_none());
    // the original takes the slot freed last, the copy the lowest
    let next = |a: &mut A| [7, 8, 9].map(|t| format!("{:?}", a.insert(p[2], t)));
    assert_eq!(next(&mut a), ["P0[1](5)", "P0[6](5)", "P0[2](5)"]);
    assert_eq!(next(&mut copy), ["P0[1](5)", "P0[2](5)", "P0[6](5)"]);
    // there is room enough, and it stays
    let mut wide = A::with_min_capacity_separated(20, 30).unwrap();
    wide.clone_from_with(&a, |_, t| *t, |_, s| *s).unwrap();
    assert_eq!((wide.capacity(), wide.capacity_shared()), (20, 30));
}

/// `transfer_canonical_reallocating` clears the target and gives its frames the generation handed in, in canonical order; it leaves an
/// empty source alone. Of the text is that, the order in which room is made, and that each frame is removed from the source, which then
/// has no frame; that its slots are on its free chains, and by how much its generation rose, is the stand-in's.
#[test]
fn a_move_by_transfer_canonical() {
    let generation = |n| std::num::NonZeroU32::new(n).unwrap();
    let mut a = A::with_min_capacity_separated(9, 9).unwrap();
    let p: Vec<P0> = (1..=4).map(|n| a.insert_surject(n, 100 * n)).collect();
    a.insert(p[1], 5);
    let _ = a.union(p[3], p[1]).unwrap();
    a.remove_element(p[0]).allow();
    let mut moved = A::with_min_capacity_separated(2, 3).unwrap();
    let old = moved.insert_surject(77, 77);
    let mut told = vec![];
    let map = |q, t: triple_arena::InvalidationOption<u64>, p| {
        let t = t.allow();
        told.push(format!("{q:?} {t} {p:?}"));
        t
    };
    moved.transfer_canonical_reallocating(generation(9), &mut a, map, |s| s).unwrap();
    sound(&moved);
    // slot 2 is the lowest of the run of 2, 4 and 5
    assert_eq!([&told[0], &told[3]], ["P0[2](2) 2 P0[1](9)", "P0[3](2) 3 P0[4](9)"]);
    assert_eq!((moved.capacity(), moved.capacity_shared(), moved.len(), moved.len_shared()), (4, 3, 4, 2));
    assert_eq!(moved.shared_vals().copied().collect::<Vec<_>>(), [200, 300]);
    assert!(moved.get(old).is_none() && a.is_empty() && a.len_shared() == 0);
    assert_eq!(format!("{:?}", moved.insert_surject(8, 8)), "P0[5](9)");
    // an empty source empties the target
    moved.transfer_canonical_reallocating(generation(3), &mut a, |_, t, _| t.allow(), |s: u64| s).unwrap();
    assert_eq!((moved.len(), format!("{:?}", moved.insert_surject(9, 9))), (0, "P0[1](3)".to_owned()));
}

/// The files that are compiled are the published ones, byte for byte: lengths, and sums by FNV-1a.
#[test]
fn the_three_files_are_as_published() {
    let sum = |text: &str| {
        text.bytes().fold(0xCBF2_9CE4_8422_2325u64, |sum, byte| (sum ^ byte as u64).wrapping_mul(0x0100_0000_01B3))
    };
    let said = |text: &str| (text.len(), sum(text));
    let arena = include_str!("../../../docs/src/src/surject/surject_arena.rs");
    let iterators = include_str!("../../../docs/src/src/surject/surject_iterators.rs");
    let imp = include_str!("../../../docs/src/src/surject/impl_surject_arena_trait.rs");
    assert_eq!(said(arena), (60_012, 0xEAC2_C963_54CF_361B));
    assert_eq!(said(iterators), (10_686, 0x33FF_FFF8_724D_A558));
    assert_eq!(said(imp), (8_150, 0xBA79_4228_2154_4871));
}
