use codesearch::{count_lines, scan, BuildFault, Builder, Error, Index, IndexFault, MergeFault, Next, Pattern, PatternFault, Skip, Style};
use std::ops::Range;

fn built(paths: &[&str], files: &[(&str, &str)]) -> Vec<u8> {
    let mut builder = Builder::new(paths).unwrap();
    for (name, text) in files {
        assert_eq!(builder.add(name, text.as_bytes()), Ok(None));
    }
    builder.finish().unwrap()
}

fn sample() -> Vec<u8> {
    built(&["/a", "/b"], &[("/a/1", "alpha\nmarker here\n"), ("/a/2", "beta\n"), ("/b/3", "marker\nmarkers")])
}

#[test]
fn an_index_is_read() {
    let bytes = sample();
    let index = Index::new(&bytes).unwrap();
    assert_eq!((index.len(), index.is_empty()), (3, false));
    assert_eq!((index.name(2).as_deref(), index.name(3)), (Some("/b/3"), None));
    assert_eq!((index.path(1).as_deref(), index.path(2)), (Some("/b"), None));
    assert_eq!(Index::new(&bytes[..bytes.len() - 1]).err(), Some(Error::Index(IndexFault::BadTrailer)));
    assert_eq!(Index::new(b"").err().unwrap().to_string(), "bad index: magic");
    assert_eq!(Pattern::new("markers?", false).unwrap().candidates(&index), Ok(vec![0, 2]));
}

#[test]
fn patterns_match_lines() {
    let mut pattern = Pattern::new("b(c|d)*$", false).unwrap();
    assert_eq!((pattern.is_match(b"abcd"), pattern.is_match(b"abx"), pattern.is_match(b"")), (Ok(true), Ok(false), Ok(false)));
    let block = b"ab\nx\nbc\n\nbdd";
    let lines: Result<Vec<_>, _> = pattern.lines(block).collect();
    assert_eq!(lines, Ok(vec![&b"ab"[..], b"bc", b"bdd"]));
    assert_eq!((pattern.count(block), pattern.next_line(block, 3)), (Ok(3), Ok(Some(5..7))));
    assert_eq!(pattern.next_line(block, usize::MAX), Ok(None));
    assert_eq!(Pattern::new("x(a", false).err(), Some(Error::Pattern(PatternFault::OpenGroup, 1)));
    assert_eq!(Pattern::new("a**", false).err().unwrap().to_string(), "bad pattern at byte 2: a repeat of a repeat");
    assert_eq!(Pattern::new("É", true).unwrap().is_match("É".as_bytes()), Ok(true));
}

#[test]
fn searches_stop_where_a_line_begins() {
    let mut pattern = Pattern::new("b", false).unwrap();
    let block = b"ab\nxx\nb\n\nbb";
    assert_eq!(pattern.next_line_within(block, 0, 1), Ok(Next::Line(0..2)));
    assert_eq!(pattern.next_line_within(block, 3, 3), Ok(Next::Stopped(6)));
    assert_eq!(pattern.next_line_within(block, 3, 4), Ok(Next::Line(6..7)));
    assert_eq!(pattern.next_line_within(block, 11, 0), Ok(Next::End));
    assert_eq!((pattern.count_within(block, 0, 4), pattern.count_within(block, 6, 9)), (Ok((1, Some(6))), Ok((2, None))));
    assert_eq!(pattern.count_within(block, 0, 0), Ok((0, Some(0))));
}

#[test]
fn candidates_come_in_pages() {
    let bytes = sample();
    let index = Index::new(&bytes).unwrap();
    let mut pattern = Pattern::new("marker", false).unwrap();
    assert_eq!(pattern.candidates_from(&index, 0, 1), Ok((vec![0], true)));
    assert_eq!(pattern.candidates_from(&index, 1, 1), Ok((vec![2], false)));
    assert_eq!(pattern.candidates_from(&index, 0, usize::MAX), Ok((vec![0, 2], false)));
    assert_eq!(pattern.candidates_from(&index, u32::MAX, 0), Ok((vec![], false)));
}

#[test]
fn matches_have_offsets() {
    let mut pattern = Pattern::new("a|ab|aab", false).unwrap();
    assert_eq!((pattern.find(b"xaab", 0), pattern.find(b"xaab", 2), pattern.find(b"xaab", 4)), (Some(1..4), Some(2..4), None));
    assert_eq!((pattern.find(b"xaab", 5), pattern.find_after(b"xaab", &(0..9))), (None, None));
    let mut letters = Pattern::new("x*", false).unwrap();
    assert_eq!(letters.spans(b"axxb").collect::<Vec<_>>(), [0..0, 1..3, 4..4]);
    assert_eq!(letters.words(b"x xx-ax").collect::<Vec<_>>(), [0..1, 2..4]);
    let mut shorter = Pattern::new("a|a-b", false).unwrap();
    assert_eq!((shorter.find(b"a-bc", 0), shorter.find_word(b"a-bc", 0)), (Some(0..3), Some(0..1)));
    assert_eq!(shorter.spans_within(b"a a a a", false, usize::MAX, 2), (vec![0..1, 2..3], true));
    assert_eq!(shorter.spans_within(b"a a", true, usize::MAX, 9), (vec![0..1, 2..3], false));
    assert_eq!(shorter.spans_within(b"a a", false, 0, 9), (vec![], true));
}

#[test]
fn newlines_are_counted() {
    assert_eq!((count_lines(b"a\n\nb\n", 0..5), count_lines(b"a\n\nb\n", 2..4), count_lines(b"", 0..0)), (Some(3), Some(1), Some(0)));
    assert_eq!((count_lines(b"a\n", 1..3), count_lines(b"a\n", Range { start: 2, end: 1 })), (None, None));
}

#[test]
fn reports_are_those_of_cgrep() {
    let mut pattern = Pattern::new("b", false).unwrap();
    let style = |count, list, number, bare| Style { count, list, number, bare };
    for (style, wanted) in [
        (style(false, false, false, false), "n:ab\nn:b\n"),
        (style(true, false, false, false), "n: 2\n"),
        (style(true, true, false, false), "n\n"),
        (style(false, false, true, true), "1:ab\n3:b\n"),
    ] {
        assert_eq!(pattern.grep("n", b"ab\nx\nb", style).unwrap(), wanted.as_bytes());
    }
    let long = "b\n".repeat(5000);
    assert_eq!(pattern.grep("n", long.as_bytes(), Style::default()).unwrap().len(), 4 * 5000);
}

#[test]
fn indexes_are_built() {
    assert_eq!(Builder::new(&["/b", "/a"]).err(), Some(Error::Build(BuildFault::BadPaths)));
    assert_eq!(Builder::new(&["/a\0/b"]).err(), Some(Error::Build(BuildFault::BadPaths)));
    let mut builder = Builder::new(&["/b"]).unwrap();
    assert_eq!(builder.add("/b/1", b"a\0"), Ok(Some(Skip::Nul)));
    assert_eq!(builder.add("/b/1", b"marker"), Ok(None));
    assert_eq!(builder.add("/b/1", b"marker"), Err(Error::Build(BuildFault::OutOfOrder)));
    let bytes = builder.finish().unwrap();
    assert_eq!(Index::new(&bytes).unwrap().name(0).as_deref(), Some("/b/1"));
}

#[test]
fn indexes_are_merged() {
    let (older, newer) = (sample(), built(&["/a"], &[("/a/2", "a new marker\n")]));
    let (older, newer) = (Index::new(&older).unwrap(), Index::new(&newer).unwrap());
    let wanted = built(&["/a", "/b"], &[("/a/2", "a new marker\n"), ("/b/3", "marker\nmarkers")]);
    assert_eq!((older.merge(&newer), newer.merge(&older)), (Ok(wanted), Ok(older.bytes().to_vec())));
    let outside = built(&["/c"], &[("/a/1", "marker")]);
    let error = older.merge(&Index::new(&outside).unwrap()).unwrap_err();
    assert_eq!((error, error.to_string().as_str()), (Error::Merge(MergeFault::Uncovered), "name outside the paths"));
}

#[test]
fn texts_are_scanned() {
    assert_eq!((scan(b"text\n"), scan(b"\xe9a"), scan(&[b'a'; 2001])), (Ok(None), Ok(Some(Skip::Utf8)), Ok(Some(Skip::LongLine))));
}

#[test]
fn an_index_is_shared_by_threads() {
    let bytes = sample();
    let index = Index::new(&bytes).unwrap();
    std::thread::scope(|scope| {
        for _ in 0..4 {
            scope.spawn(|| {
                for _ in 0..200 {
                    assert_eq!(Pattern::new("marker", false).unwrap().candidates(&index), Ok(vec![0, 2]));
                }
            });
        }
    });
}

#[test]
fn a_pattern_goes_to_another_thread() {
    let mut pattern = Pattern::new("o[a-z]*", false).unwrap();
    let mut builder = Builder::new(&["/a"]).unwrap();
    let block = b"a\none\nto";
    assert_eq!((pattern.count(block), pattern.find(b"two", 0)), (Ok(2), Some(2..3)));
    for _ in 0..4 {
        (pattern, builder) = std::thread::spawn(move || {
            assert_eq!((pattern.count(block), pattern.next_line(block, 2)), (Ok(2), Ok(Some(2..5))));
            assert_eq!(pattern.find(b"two", 0), Some(2..3));
            (pattern, builder)
        })
        .join()
        .unwrap();
    }
    assert_eq!(pattern.find(b"one", 0), Some(0..3));
    std::thread::spawn(move || drop(pattern)).join().unwrap();
    assert_eq!(builder.add("/a/1", b"marker"), Ok(None));
    let bytes = std::thread::spawn(move || builder.finish().unwrap()).join().unwrap();
    assert_eq!(Index::new(&bytes).unwrap().len(), 1);
}
