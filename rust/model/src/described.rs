//! Document 02's ticket 7, of soundness: what the head remembers is zeros, or describes a union whose taking back gives a sound
//! state, from which that union gives the present one. Read as it stands: the state before is made from the ring as a list, and
//! the union made on it again. The number of frames moved is not used on the way back.

use crate::{layout::*, rows::Rows, sets};

/// Of a state whose other sentences hold.
pub fn remembers(head: &Head, elems: &[u64], shared: &[u64]) -> bool {
    if head.undo == Memory::default() {
        return true;
    }
    let Some(mut before) = before(head, elems, shared) else { return false };
    if !sets::in_tables(&before.head, &before.elems, &before.shared) {
        return false;
    }
    let key = |slot: u64| Key { slot, generation: elems[(slot as usize - 1) * FRAME + GENERATION] };
    let mut rows = Rows { head: &mut before.head, elems: &mut before.elems, shared: &mut before.shared };
    let said = rows.union(key(head.undo.kept), key(head.undo.gone));
    said.is_ok() && before.head == *head && before.elems == elems && before.shared == shared
}

struct Before {
    head: Head,
    elems: Vec<u64>,
    shared: Vec<u64>,
}

/// The state before the union, if there is one: the frames after the kept key's, up to the other key's, were a run of their own
/// under the shared slot that was freed last.
fn before(head: &Head, elems: &[u64], shared: &[u64]) -> Option<Before> {
    let Memory { kept, gone, value, .. } = head.undo;
    let freed = head.shared.root;
    if !(1..=head.elems.extent).contains(&kept) || freed == 0 {
        return None;
    }
    let at = |slot: u64, field: usize| elems[(slot as usize - 1) * FRAME + field];
    if at(kept, GENERATION) == 0 {
        return None;
    }
    let mut ring = vec![kept];
    while at(ring[ring.len() - 1], NEXT) != kept {
        ring.push(at(ring[ring.len() - 1], NEXT));
    }
    let last = ring.iter().position(|&slot| slot == gone)?;
    let own: Vec<u64> = ring[..1].iter().chain(&ring[last + 1..]).copied().collect();
    let mut before = Before { head: *head, elems: elems.to_vec(), shared: shared.to_vec() };
    before.head.shared.root = shared[(freed as usize - 1) * HEADER + NEXT_FREE];
    before.head.shared.live += 1;
    before.head.undo = Memory::default();
    let class = at(kept, CLASS);
    before.put_run(&own, class, shared[(class as usize - 1) * HEADER + VALUE]);
    before.put_run(&ring[1..=last], freed, value);
    Some(before)
}

impl Before {
    /// A run of these frames in this order, under this shared slot. The kept header's mark stays.
    fn put_run(&mut self, ring: &[u64], class: u64, value: u64) {
        let count = ring.len();
        let mut total = 0;
        for (i, &slot) in ring.iter().enumerate() {
            let row = &mut self.elems[(slot as usize - 1) * FRAME..][..FRAME];
            (row[CLASS], row[PREVIOUS], row[NEXT]) = (class, ring[(i + count - 1) % count], ring[(i + 1) % count]);
            total += row[SIZE];
        }
        let header = &mut self.shared[(class as usize - 1) * HEADER..][..HEADER];
        header.copy_from_slice(&[count as u64, value, 0, header[MARK], total]);
    }
}
