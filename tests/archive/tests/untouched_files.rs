//! Run files in pages that cannot be written: what the writer is lent to be read and the reader's file always, and everything on a
//! refusal; a store even of what stood there already ends the process. Every refusal that the header lists of the two entries is had.

use archive::files::{Run, bytes_of, file_of, runs_in, wanted_read};
use archive::pages::{End, Pages, Parts, end_of, is_fault, listed};
use archive::{Host, key};
use doorsedge::sys::{doorsedge_read_file, doorsedge_write_file};
use model::door::Call;
use std::collections::BTreeSet;

/// How the writer ends, over head, tables and `out`, and over bytes.
fn end_of_write(parts: &Parts, file: &Pages<u8>) -> End {
    let lent = parts.lent();
    let (e, s) = (lent.elems, lent.shared);
    // Safety: over pages that are apart
    end_of(|| unsafe {
        doorsedge_write_file(lent.head, e.cast(), e.len(), s.cast(), s.len(), file.start, file.count, lent.out.cast())
    })
}

fn end_of_read(parts: &Parts, file: &Pages<u8>) -> End {
    let lent = parts.lent();
    let (e, s) = (lent.elems, lent.shared);
    // Safety: as above
    end_of(|| unsafe { doorsedge_read_file(lent.head, e.cast(), e.len(), s.cast(), s.len(), file.start, file.count) })
}

fn study() -> Host {
    let mut host = Host::fresh(5, 4);
    for n in 1..=4 {
        assert_eq!(host.call(Call::InsertSurject { payload: n, value: n, size: 9 }, &[]).number, 0);
    }
    assert_eq!(host.call(Call::Union(key(2, 1), key(4, 1)), &[]).number, 0);
    host
}

/// Sound with a union to undo, unsound, and of no shape.
fn hosts() -> [Host; 4] {
    let changed = |change: fn(&mut Host)| {
        let mut host = study();
        change(&mut host);
        host
    };
    [study(), Host::fresh(5, 4), changed(|host| host.head[3] += 1), changed(|host| host.shared.push(0))]
}

#[test]
fn refusals_write_nothing() {
    let mut had = BTreeSet::new();
    let mut note = |entry: &str, end: End| match end {
        End::Said(0) => panic!("{entry} was accepted over locked pages"),
        End::Said(number) => drop(had.insert((entry.to_owned(), number))),
        End::Signal(signal) => panic!("{entry} refused and wrote, or ended by {signal}"),
    };
    for host in hosts() {
        for room in [0, 8, 40] {
            // the file of an empty study has eight bytes
            if room == 0 || !host.keys().is_empty() {
                let (parts, file) = (Parts::of(&host, &[]), Pages::of(&vec![7; room]));
                parts.0.iter().for_each(Pages::lock);
                file.lock();
                note("write_file", end_of_write(&parts, &file));
            }
        }
        let one = Run { value: 1, frames: vec![(2, 3)] };
        let six = Run { value: 1, frames: vec![(2, 3); 6] };
        let mut other = bytes_of(std::slice::from_ref(&one));
        other[0] = 2;
        let files = [
            vec![],
            vec![1; 7],
            other,
            file_of(&[Run::default().body()]),
            bytes_of(std::slice::from_ref(&one))[..39].to_vec(),
            bytes_of(&vec![one.clone(); 5]),
            bytes_of(&[six]),
        ];
        for bytes in files {
            let (parts, file) = (Parts::of(&host, &[]), Pages::of(&bytes));
            parts.0.iter().for_each(Pages::lock);
            file.lock();
            note("read_file", end_of_read(&parts, &file));
        }
    }
    let of_files = |entry: &str| ["write_file", "read_file"].contains(&entry);
    assert_eq!(had, listed().into_iter().filter(|(entry, _)| of_files(entry)).collect());
}

/// An accepted write stores to the bytes and to `out` and to nothing else.
#[test]
fn a_write_leaves_the_study_alone() {
    for host in [study(), Host::fresh(5, 4)] {
        let bytes = bytes_of(&runs_in(&host));
        let lay = || (Parts::of(&host, &[]), Pages::of(&vec![7; bytes.len()]));
        let (parts, file) = lay();
        parts.0[..4].iter().for_each(Pages::lock);
        assert_eq!(end_of_write(&parts, &file), End::Said(0));
        let (parts, file) = lay();
        parts.0[4].lock();
        assert!(is_fault(&end_of_write(&parts, &file)), "`out` is not written");
        let (parts, file) = lay();
        file.lock();
        assert!(is_fault(&end_of_write(&parts, &file)), "the bytes are not written");
    }
}

/// An accepted read stores to head and tables, where they change, and never to the file.
#[test]
fn a_read_leaves_the_file_alone() {
    let bytes = bytes_of(&[Run { value: 1, frames: vec![(2, 3), (4, 5)] }, Run { value: 6, frames: vec![(7, 8)] }]);
    for host in [study(), Host::fresh(5, 4)] {
        let file = Pages::of(&bytes);
        file.lock();
        assert_eq!(end_of_read(&Parts::of(&host, &[]), &file), End::Said(0));
        let (_, after) = wanted_read(&host, &bytes);
        for (part, after) in [&after.head[..], &after.elems, &after.shared].into_iter().enumerate() {
            let parts = Parts::of(&host, &[]);
            parts.0[part].lock();
            assert_ne!(parts.0[part].numbers(), after);
            assert!(is_fault(&end_of_read(&parts, &file)), "part {part} is not written");
        }
    }
}
