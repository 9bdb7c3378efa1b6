// The candidates of queries that no pattern has, and those of an index in a store.
// `tests/runs/rows.py` has queries of patterns.
use cs_fakes::{Files, ONE_FILE, UNSORTED, changed, index_of, number};
use cs_index::{Index, StoredIndex};
use cs_tree::MemStore;
use cs_trigram::Query;
use std::alloc::{AllocError, Global};
use std::process::Abort;
use std::test::Fail;

/// The conjunction or disjunction of the queries.
fn joined(all: bool, queries: Vec<Query>) -> Query {
    if all {
        Query::And(queries)
    } else {
        Query::Or(queries)
    }
}

/// The conjunction or disjunction of the trigrams.
fn query_of(alloc: Global, all: bool, trigrams: &[&str]) -> Result<Query, AllocError> {
    let mut queries = Vec::new(alloc);
    for trigram in trigrams {
        queries.push(Query::Tri(number(trigram.as_bytes())))?;
    }
    Ok(joined(all, queries))
}

const FILES: Files<'static> = &[
    ("/g/1", b"Google Search\n"),
    ("/g/2", b"Google\n"),
    ("/g/3", b"Search\n"),
];

/// Whether the query has exactly these candidates in the index.
fn finds(alloc: Global, index: &Index<'_>, query: &Query, want: &[u32]) -> bool {
    match index.candidates(alloc, query) {
        Ok(found) => found.as_slice() == want,
        Err(_) => false,
    }
}

/// The same for a query that may be missing.
fn matches_some(alloc: Global, index: &Index<'_>, query: Option<Query>, want: &[u32]) -> bool {
    match query {
        Some(query) => finds(alloc, index, &query, want),
        None => false,
    }
}

/// Whether it is a conjunction or a disjunction, the trigrams, and the candidates.
const FOUND: &[(bool, &[&str], &[u32])] = &[
    (false, &["le\n", "Sea"], &[0, 1, 2]),
    (false, &[], &[]),
    (true, &[], &[0, 1, 2]),
];

/// Whether the outer query is a conjunction or a disjunction, the same of each inner one, their
/// trigrams, and the candidates.
const NESTED: &[(bool, bool, &[&[&str]], &[u32])] = &[(
    false,
    true,
    &[&["Goo", "le\n"], &["Goo", "Sea"]],
    &[0, 1],
)];

/// The conjunction or disjunction of the members, which are queries of trigrams.
fn nested(
    alloc: Global,
    all: bool,
    all_of_each: bool,
    members: &[&[&str]],
) -> Result<Query, AllocError> {
    let mut queries = Vec::new(alloc);
    for trigrams in members {
        queries.push(query_of(alloc, all_of_each, trigrams)?)?;
    }
    Ok(joined(all, queries))
}

/// The query of each row has its candidates in the index.
fn matches_rows(rt: &(impl Abort + AllocGlobal), index: &Index<'_>) {
    for (all, trigrams, want) in FOUND {
        let query = query_of(rt.alloc(), *all, trigrams).ok();
        assert!(rt;
            matches_some(rt.alloc(), index, query, want),
            "{trigrams:?}"
        );
    }
    for (all, all_of_each, members, want) in NESTED {
        let query = nested(rt.alloc(), *all, *all_of_each, members).ok();
        assert!(rt; matches_some(rt.alloc(), index, query, want), "{members:?}");
    }
}

#[test]
fn names_are_found(rt: HostRuntime) -> Result<(), Fail> {
    let bytes = index_of(rt.alloc(), &["/g"], FILES).ok_or("index")?;
    let index = Index::open(&bytes)?;
    matches_rows(&rt, &index);
    assert!(rt; finds(rt.alloc(), &index, &Query::Nothing, &[]));
    Ok(())
}

/// Whether an index in memory and one in a store have the same candidates of a trigram, or the same
/// error.
fn answer_alike(
    alloc: Global,
    index: &Index<'_>,
    stored: &StoredIndex,
    store: &mut MemStore<'_>,
    trigram: u32,
) -> Result<bool, Fail> {
    let query = Query::Tri(trigram);
    let found = stored.candidates(alloc, store, &query)?;
    Ok(match (index.candidates(alloc, &query), found) {
        (Ok(ids), Ok(others)) => ids.as_slice() == others.as_slice(),
        (Err(fault), Err(other)) => fault == other,
        _ => false,
    })
}

/// The same for two trigrams, with reads of at most seven bytes; if the bytes do not open, the same
/// error of opening.
fn agree(alloc: Global, bytes: &[u8]) -> Result<bool, Fail> {
    let mut store = MemStore::new(bytes, 7);
    let stored = match StoredIndex::open(alloc, &mut store)? {
        Ok(stored) => stored,
        Err(fault) => return Ok(Index::open(bytes).err() == Some(fault)),
    };
    let index = Index::open(bytes)?;
    for trigram in [0x616263, 0x626364] {
        if !answer_alike(alloc, &index, &stored, &mut store, trigram)? {
            return Ok(false);
        }
    }
    Ok(true)
}

#[test]
fn bytes_of_a_store_are_altered(rt: HostRuntime) -> Result<(), Fail> {
    for byte in [0, 1, 2, 5, 0x7f, 0x80, 0xff] {
        for at in 0..ONE_FILE.len() {
            let bytes = changed(ONE_FILE, &[(at, byte)]);
            assert!(rt; agree(rt.alloc(), &bytes)?, "{byte} at {at}");
        }
        for at in 0..UNSORTED.len() {
            let bytes = changed(UNSORTED, &[(at, byte)]);
            assert!(rt; agree(rt.alloc(), &bytes)?, "{byte} at {at}, unsorted");
        }
    }
    Ok(())
}

/// An entry counts 2^32 - 1 ids.
#[test]
fn the_largest_count(rt: HostRuntime) -> Result<(), Fail> {
    let bytes = changed(ONE_FILE, &[(56, 0xff), (57, 0xff), (58, 0xff), (59, 0xff)]);
    let index = Index::open(&bytes)?;
    assert!(rt; index.count(number(b"abc")) == u32::MAX && agree(rt.alloc(), &bytes)?);
    Ok(())
}
