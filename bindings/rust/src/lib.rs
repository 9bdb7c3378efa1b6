//! Searches source trees by regular expressions through an index of trigrams: safe functions over `libcodesearch`, whose
//! matcher, reports, reader, builder and merge are proved.
//!
//! An [`Index`] borrows its bytes and can be shared by threads. A [`Pattern`] keeps a cache that its matches change, and a
//! [`Builder`] an index under construction: both may go from one thread to another, and neither is `Sync`, so that threads
//! that search at once have patterns of their own.
//!
//! ```
//! use codesearch::{Builder, Index, Pattern};
//! let mut builder = Builder::new(&["/src"])?;
//! builder.add("/src/a.c", b"int main(void)\n")?;
//! let bytes = builder.finish()?;
//! let index = Index::new(&bytes)?;
//! let mut pattern = Pattern::new("ma.n", false)?;
//! assert_eq!(pattern.candidates(&index)?, [0]);
//! assert_eq!(index.name(0).as_deref(), Some("/src/a.c"));
//! assert!(pattern.is_match(b"int main(void)")?);
//! # Ok::<(), codesearch::Error>(())
//! ```

mod error;
mod sys;

pub use error::{BuildFault, Error, IndexFault, MergeFault, PatternFault, Skip};
use std::ops::Range;

fn done(code: i32) -> Result<i32, Error> {
    if code < 0 { Err(Error::of(code, 0)) } else { Ok(code) }
}

const ROOM: i32 = -3;
const STOPPED: i32 = -6;

/// Calls with a buffer that is long enough.
fn grown<T: Copy + Default>(first: usize, mut call: impl FnMut(*mut T, usize, &mut usize) -> i32) -> Result<Vec<T>, Error> {
    let mut buffer = vec![T::default(); first];
    loop {
        let mut len = 0;
        match call(buffer.as_mut_ptr(), buffer.len(), &mut len) {
            ROOM => buffer.resize(len, T::default()),
            code => {
                done(code)?;
                buffer.truncate(len);
                return Ok(buffer);
            }
        }
    }
}

/// An index whose bytes have been checked.
#[derive(Clone, Copy)]
pub struct Index<'a> {
    bytes: &'a [u8],
}

impl<'a> Index<'a> {
    /// Checks all of an index but its posting lists.
    pub fn new(bytes: &'a [u8]) -> Result<Index<'a>, Error> {
        // SAFETY: the pointer and the length are those of the slice. So it is below, too.
        done(unsafe { sys::cs_index_check(bytes.as_ptr(), bytes.len()) })?;
        Ok(Index { bytes })
    }

    /// The bytes.
    pub fn bytes(&self) -> &'a [u8] {
        self.bytes
    }

    /// The number of names.
    pub fn len(&self) -> u32 {
        let mut count = 0;
        // SAFETY: `new` has checked these bytes, and they are borrowed since.
        unsafe { sys::cs_index_names(self.bytes.as_ptr(), self.bytes.len(), &mut count) };
        count
    }

    /// Whether there are no names.
    pub fn is_empty(&self) -> bool {
        self.len() == 0
    }

    /// The name with an id.
    pub fn name(&self, id: u32) -> Option<String> {
        // SAFETY: as in `len`.
        self.entry(|buffer, room, len| unsafe { sys::cs_index_name(self.bytes.as_ptr(), self.bytes.len(), id, buffer, room, len) })
    }

    /// The indexed path at a position.
    pub fn path(&self, at: u32) -> Option<String> {
        // SAFETY: as in `len`.
        self.entry(|buffer, room, len| unsafe { sys::cs_index_path(self.bytes.as_ptr(), self.bytes.len(), at, buffer, room, len) })
    }

    /// The bytes of the index that this one and a newer one merge to: the newer one takes precedence at all names that its
    /// paths cover.
    pub fn merge(&self, newer: &Index<'_>) -> Result<Vec<u8>, Error> {
        let (older, newer) = (self.bytes, newer.bytes);
        let mut bytes = Bytes(sys::Slot::EMPTY);
        // SAFETY: the pointers and the lengths are those of the slices, and the slot is empty.
        done(unsafe { sys::cs_index_merge(older.as_ptr(), older.len(), newer.as_ptr(), newer.len(), &mut bytes.0) })?;
        bytes.copied()
    }

    fn entry(&self, call: impl FnMut(*mut u8, usize, &mut usize) -> i32) -> Option<String> {
        String::from_utf8(grown(256, call).ok()?).ok()
    }
}

/// Bytes that the library made.
struct Bytes(sys::Slot);

impl Bytes {
    fn copied(&mut self) -> Result<Vec<u8>, Error> {
        let mut len = 0;
        // SAFETY: the slot is the library's, and the buffer is as long as said.
        unsafe {
            done(sys::cs_bytes_len(&mut self.0, &mut len))?;
            let mut bytes = vec![0; len];
            done(sys::cs_bytes_copy(&mut self.0, 0, bytes.as_mut_ptr(), len))?;
            Ok(bytes)
        }
    }
}

impl Drop for Bytes {
    fn drop(&mut self) {
        // SAFETY: the slot is the library's.
        unsafe { sys::cs_bytes_free(&mut self.0) }
    }
}

/// How [`Pattern::grep`] prints: the options of `cgrep`.
#[derive(Clone, Copy, Debug, Default, PartialEq, Eq)]
pub struct Style {
    /// `-c`: the number of matching lines.
    pub count: bool,
    /// `-l`: the name only.
    pub list: bool,
    /// `-n`: numbers of lines.
    pub number: bool,
    /// `-h`: no name.
    pub bare: bool,
}

/// A compiled pattern, with the cache of its matcher.
pub struct Pattern {
    slot: sys::Slot,
}

// SAFETY: a slot owns a box of plain data, and the library has no other state (no static and no thread-local one): it is proved
// that the box may go to another thread (`Send` of `Handle` in codesearch_c). malloc and free take blocks of any thread, and
// `&mut self` gives the slot to one call at a time.
unsafe impl Send for Pattern {}

/// What [`Pattern::next_line_within`] finds.
#[derive(Clone, Debug, PartialEq, Eq)]
pub enum Next {
    /// The first matching line.
    Line(Range<usize>),
    /// No line matches up to the end of the block.
    End,
    /// No line matches that begins before this offset, where the budget is used up. The next line begins there.
    Stopped(usize),
}

impl Pattern {
    /// Compiles a pattern. With `fold` an ASCII letter matches both of its cases.
    pub fn new(text: &str, fold: bool) -> Result<Pattern, Error> {
        let mut pattern = Pattern { slot: sys::Slot::EMPTY };
        let mut offset = 0;
        // SAFETY: the slot is empty.
        match unsafe { sys::cs_pattern_compile(text.as_ptr(), text.len(), fold, &mut pattern.slot, &mut offset) } {
            0 => Ok(pattern),
            code => Err(Error::of(code, offset)),
        }
    }

    /// Whether some part of the line matches.
    pub fn is_match(&mut self, line: &[u8]) -> Result<bool, Error> {
        // SAFETY: the slot is filled, and borrowed for the call. So it is below, too.
        Ok(done(unsafe { sys::cs_pattern_is_match(&mut self.slot, line.as_ptr(), line.len()) })? == 1)
    }

    /// The first matching line of those that begin at an offset.
    pub fn next_line(&mut self, block: &[u8], from: usize) -> Result<Option<Range<usize>>, Error> {
        let mut line = sys::Line::default();
        let found = done(unsafe { sys::cs_pattern_next(&mut self.slot, block.as_ptr(), block.len(), from, &mut line) })?;
        Ok((found == 1).then_some(line.start..line.end))
    }

    /// The same among the lines that begin in the `budget` bytes from the offset on. The last of them is read to its end, however
    /// long it is.
    pub fn next_line_within(&mut self, block: &[u8], from: usize, budget: usize) -> Result<Next, Error> {
        let (mut line, mut reached) = (sys::Line::default(), 0);
        let (bytes, len) = (block.as_ptr(), block.len());
        match unsafe { sys::cs_pattern_next_within(&mut self.slot, bytes, len, from, budget, &mut line, &mut reached) } {
            STOPPED => Ok(Next::Stopped(reached)),
            code => Ok(if done(code)? == 1 { Next::Line(line.start..line.end) } else { Next::End }),
        }
    }

    /// The matching lines of a block. The iterator ends at the first error.
    pub fn lines<'p, 'b>(&'p mut self, block: &'b [u8]) -> Lines<'p, 'b> {
        Lines { pattern: self, block, from: Some(0) }
    }

    /// The number of matching lines of a block.
    pub fn count(&mut self, block: &[u8]) -> Result<u64, Error> {
        let mut count = 0;
        done(unsafe { sys::cs_pattern_count(&mut self.slot, block.as_ptr(), block.len(), &mut count) })?;
        Ok(count)
    }

    /// The number of matching lines that begin in the `budget` bytes from an offset on, and where the next line begins, if the
    /// block has more.
    pub fn count_within(&mut self, block: &[u8], from: usize, budget: usize) -> Result<(u64, Option<usize>), Error> {
        let (mut count, mut reached) = (0, 0);
        let (bytes, len) = (block.as_ptr(), block.len());
        match unsafe { sys::cs_pattern_count_within(&mut self.slot, bytes, len, from, budget, &mut count, &mut reached) } {
            STOPPED => Ok((count, Some(reached))),
            code => done(code).map(|_| (count, None)),
        }
    }

    /// The first match of a line that begins at an offset or later: the leftmost one, and of those that begin there the longest.
    /// There is none after the line.
    pub fn find(&mut self, line: &[u8], from: usize) -> Option<Range<usize>> {
        let mut span = sys::Span::default();
        let found = unsafe { sys::cs_pattern_find(&mut self.slot, line.as_ptr(), line.len(), from, &mut span) };
        (found == 1).then_some(span.start..span.end)
    }

    /// The first match that begins at the end of another or later, and ends after it.
    pub fn find_after(&mut self, line: &[u8], last: &Range<usize>) -> Option<Range<usize>> {
        let (last, mut span) = (sys::Span { start: last.start, end: last.end }, sys::Span::default());
        let found = unsafe { sys::cs_pattern_find_after(&mut self.slot, line.as_ptr(), line.len(), &last, &mut span) };
        (found == 1).then_some(span.start..span.end)
    }

    /// The first match that begins at an offset or later and is a whole word: no word byte (an ASCII letter or digit, or `_`)
    /// stands before it, and none after it.
    pub fn find_word(&mut self, line: &[u8], from: usize) -> Option<Range<usize>> {
        let mut span = sys::Span::default();
        let found = unsafe { sys::cs_pattern_find_word(&mut self.slot, line.as_ptr(), line.len(), from, &mut span) };
        (found == 1).then_some(span.start..span.end)
    }

    /// The first whole word that begins at the end of another match or later, and ends after it.
    pub fn find_word_after(&mut self, line: &[u8], last: &Range<usize>) -> Option<Range<usize>> {
        let (last, mut span) = (sys::Span { start: last.start, end: last.end }, sys::Span::default());
        let found = unsafe { sys::cs_pattern_find_word_after(&mut self.slot, line.as_ptr(), line.len(), &last, &mut span) };
        (found == 1).then_some(span.start..span.end)
    }

    /// The matches of a line in their order. All of them may take time that is quadratic in the line.
    pub fn spans<'p, 'b>(&'p mut self, line: &'b [u8]) -> Spans<'p, 'b> {
        Spans { pattern: self, line, whole: false, last: None, is_over: false }
    }

    /// Those that are whole words.
    pub fn words<'p, 'b>(&'p mut self, line: &'b [u8]) -> Spans<'p, 'b> {
        Spans { pattern: self, line, whole: true, last: None, is_over: false }
    }

    /// At most `room` of the matches of a line, and whether there may be more: all of them may take time that is quadratic in the
    /// line, so the search stops after the match at which it has read as many bytes as the budget. With `whole` those that are
    /// whole words.
    pub fn spans_within(&mut self, line: &[u8], whole: bool, budget: usize, room: usize) -> (Vec<Range<usize>>, bool) {
        let call = if whole { sys::cs_pattern_word_spans } else { sys::cs_pattern_spans };
        // (a line has no more matches than these)
        let room = room.min(line.len() + 1);
        let (mut spans, mut count) = (vec![sys::Span::default(); room], 0);
        // SAFETY: the buffer is as long as said.
        let code = unsafe { call(&mut self.slot, line.as_ptr(), line.len(), budget, spans.as_mut_ptr(), room, &mut count) };
        (spans[..count].iter().map(|span| span.start..span.end).collect(), code < 0)
    }

    /// The ids of the names whose text may have a matching line, ascending.
    pub fn candidates(&mut self, index: &Index<'_>) -> Result<Vec<u32>, Error> {
        let bytes = index.bytes;
        grown(64, |ids, room, count| unsafe {
            sys::cs_pattern_candidates(&mut self.slot, bytes.as_ptr(), bytes.len(), ids, room, count)
        })
    }

    /// At most `room` of these ids, those from an id on, and whether there are more. Each posting list is read whole.
    pub fn candidates_from(&mut self, index: &Index<'_>, from: u32, room: usize) -> Result<(Vec<u32>, bool), Error> {
        let bytes = index.bytes;
        // (there are no more ids than names)
        let room = room.min(index.len() as usize);
        let (mut ids, mut count) = (vec![0; room], 0);
        // SAFETY: the buffer is as long as said.
        let code = unsafe {
            sys::cs_pattern_candidates_from(&mut self.slot, bytes.as_ptr(), bytes.len(), from, ids.as_mut_ptr(), room, &mut count)
        };
        if code != STOPPED {
            done(code)?;
        }
        ids.truncate(count);
        Ok((ids, code == STOPPED))
    }

    /// The lines that `cgrep` prints for an input with this name and text.
    pub fn grep(&mut self, name: &str, text: &[u8], style: Style) -> Result<Vec<u8>, Error> {
        let style = [style.count, style.list, style.number, style.bare].map(u32::from);
        let style = style[0] + 2 * style[1] + 4 * style[2] + 8 * style[3];
        grown(4096, |out, room, len| unsafe {
            sys::cs_grep(&mut self.slot, name.as_ptr(), name.len(), text.as_ptr(), text.len(), style, out, room, len)
        })
    }
}

impl Drop for Pattern {
    fn drop(&mut self) {
        // SAFETY: the slot is the library's.
        unsafe { sys::cs_pattern_free(&mut self.slot) }
    }
}

/// The matching lines of a block, in order.
pub struct Lines<'p, 'b> {
    pattern: &'p mut Pattern,
    block: &'b [u8],
    from: Option<usize>,
}

impl<'b> Iterator for Lines<'_, 'b> {
    type Item = Result<&'b [u8], Error>;

    fn next(&mut self) -> Option<Self::Item> {
        match self.pattern.next_line(self.block, self.from?) {
            Ok(Some(line)) => {
                self.from = line.end.checked_add(1);
                Some(Ok(&self.block[line]))
            }
            Ok(None) => {
                self.from = None;
                None
            }
            Err(error) => {
                self.from = None;
                Some(Err(error))
            }
        }
    }
}

/// The matches of a line, in order.
pub struct Spans<'p, 'b> {
    pattern: &'p mut Pattern,
    line: &'b [u8],
    whole: bool,
    last: Option<Range<usize>>,
    is_over: bool,
}

impl Iterator for Spans<'_, '_> {
    type Item = Range<usize>;

    fn next(&mut self) -> Option<Self::Item> {
        if self.is_over {
            return None;
        }
        let next = match (&self.last, self.whole) {
            (None, false) => self.pattern.find(self.line, 0),
            (None, true) => self.pattern.find_word(self.line, 0),
            (Some(last), false) => self.pattern.find_after(self.line, last),
            (Some(last), true) => self.pattern.find_word_after(self.line, last),
        };
        self.is_over = next.is_none();
        self.last = next.clone();
        next
    }
}

/// The number of newlines of a text in a range, or `None` if that is not within the text.
pub fn count_lines(text: &[u8], range: Range<usize>) -> Option<usize> {
    let mut count = 0;
    // SAFETY: the pointer and the length are those of the slice.
    let code = unsafe { sys::cs_count_lines(text.as_ptr(), text.len(), range.start, range.end, &mut count) };
    (code == 0).then_some(count)
}

/// Why an index takes no text, if so.
pub fn scan(text: &[u8]) -> Result<Option<Skip>, Error> {
    Ok(Skip::of(done(unsafe { sys::cs_text_scan(text.as_ptr(), text.len()) })?))
}

/// An index under construction.
pub struct Builder {
    slot: sys::Slot,
}

// SAFETY: as of `Pattern`.
unsafe impl Send for Builder {}

impl Builder {
    /// A builder over paths, which ascend, and none of which covers another.
    pub fn new(paths: &[&str]) -> Result<Builder, Error> {
        let mut text = String::new();
        for path in paths {
            // A NUL within a path would begin another one.
            if path.contains('\0') {
                return Err(Error::Build(BuildFault::BadPaths));
            }
            text.push_str(path);
            text.push('\0');
        }
        let mut builder = Builder { slot: sys::Slot::EMPTY };
        // SAFETY: the slot is empty.
        done(unsafe { sys::cs_builder_new(text.as_ptr(), text.len(), &mut builder.slot) })?;
        Ok(builder)
    }

    /// Adds a name, greater than those before, with its text; or says why the text is left out.
    pub fn add(&mut self, name: &str, text: &[u8]) -> Result<Option<Skip>, Error> {
        // SAFETY: the slot is filled.
        let code = unsafe { sys::cs_builder_add(&mut self.slot, name.as_ptr(), name.len(), text.as_ptr(), text.len()) };
        Ok(Skip::of(done(code)?))
    }

    /// The bytes of the index.
    pub fn finish(mut self) -> Result<Vec<u8>, Error> {
        let mut bytes = Bytes(sys::Slot::EMPTY);
        // SAFETY: the builder's slot is filled, and the other is empty.
        done(unsafe { sys::cs_builder_finish(&mut self.slot, &mut bytes.0) })?;
        bytes.copied()
    }
}

impl Drop for Builder {
    fn drop(&mut self) {
        // SAFETY: the slot is the library's.
        unsafe { sys::cs_builder_free(&mut self.slot) }
    }
}
