// The ids of a list, one after another. `tests/runs/altered.py` and `tests/runs/library_rows.py`
// have the bytes of indexes.
use cs_fakes::{ONE_FILE, changed};
use cs_index::{Index, IndexFault, Postings};

/// The first three answers of a list.
fn first_three(ids: Postings) -> [Option<Result<u32, IndexFault>>; 3] {
    let mut ids = ids;
    [ids.next(), ids.next(), ids.next()]
}

/// The first three answers of the list of `abc` in `ONE_FILE`, with another byte at the offset.
fn damaged(offset: usize, byte: u8) -> Option<[Option<Result<u32, IndexFault>>; 3]> {
    let bytes = changed(ONE_FILE, &[(offset, byte)]);
    let index = Index::open(&bytes).ok()?;
    Some(first_three(index.postings(0x616263)?))
}

#[test]
fn damage_is_reported(rt: HostRuntime) {
    let bad = Some(Err(IndexFault::BadList));
    assert!(rt; damaged(63, 0x0f) == Some([bad, None, None]));
    assert!(rt; damaged(59, 0x02) == Some([Some(Ok(0)), bad, None]));
}

/// What is read of a list.
type Read = Result<u32, IndexFault>;

const VARINTS: &[(&[u8], Read, Option<Read>)] = &[
    (&[0x81, 0x00, 0x00], Ok(0), None),
    (&[0x01, 0x80, 0x80, 0x80, 0x80, 0x00], Ok(0), None),
    (
        &[0x01, 0x80, 0x80, 0x80, 0x80, 0x10],
        Ok(0),
        Some(Err(IndexFault::BadList)),
    ),
    (
        &[0x01, 0x80, 0x80, 0x80, 0x80, 0x80, 0x00],
        Ok(0),
        Some(Err(IndexFault::BadList)),
    ),
    (
        &[0x80, 0x80, 0x80, 0x80, 0x10, 0x00],
        Err(IndexFault::BadList),
        None,
    ),
    (&[0x02, 0x00], Err(IndexFault::BadList), None),
];

#[test]
fn varints_are_read(rt: HostRuntime) {
    for (bytes, first, second) in VARINTS {
        let ids = Postings::new(bytes, 1, 1);
        assert!(rt;
            first_three(ids) == [Some(*first), *second, None],
            "of {bytes:?}"
        );
    }
}
