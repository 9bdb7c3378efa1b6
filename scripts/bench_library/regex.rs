// The same as codesearch.c, by Rust's regex. A pattern matches bytes. A match that has a newline is tried again in the
// line where it begins.
use regex::bytes::RegexBuilder;

extern "C" {
    fn clock() -> i64;
}

/// The processor time of this process in ms.
fn processor_time() -> f64 {
    (unsafe { clock() }) as f64 / 1e3
}

fn main() {
    let args: Vec<String> = std::env::args().collect();
    let text = std::fs::read(&args[1]).expect("a file");
    let start = processor_time();
    let mut builder = RegexBuilder::new(&args[2]);
    let pattern = match builder.unicode(false).multi_line(true).size_limit(64 << 20).dfa_size_limit(64 << 20).build() {
        Ok(pattern) => pattern,
        Err(_) => std::process::exit(1),
    };
    let (mut from, mut count) = (0, 0u64);
    while from < text.len() {
        let Some(found) = pattern.find_at(&text, from) else { break };
        let end = |at: usize| text[at..].iter().position(|b| *b == b'\n').map_or(text.len(), |n| at + n);
        let line_end = end(found.start());
        let line_start = text[..found.start()].iter().rposition(|b| *b == b'\n').map_or(0, |n| n + 1);
        if found.end() <= line_end || pattern.is_match(&text[line_start..line_end]) {
            count += 1;
        }
        from = line_end + 1;
    }
    println!("{count} {:.2}", processor_time() - start);
}
