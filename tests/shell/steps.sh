#!/bin/sh
# Fails if the source makes a second counter of steps, or puts one, or the matcher that has it, in the place of another: what is
# counted in a counter that is thrown away is counted nowhere. `*steps = Steps::new()` is refused by a clause too, since the
# count never falls (`CountsAtMost`, `WorksWithin`). No clause refuses a call that is handed a counter of its own, or one that is
# put back afterwards; this does. Only `Matcher::new` makes a counter, and `Finder::new` one of steps and one of bytes, whose passes
# are no part of the search of a block, so that no bound of a search counts them; and the walk of
# `cs_listing`, where each question about a path is bounded by itself, and no clause bounds the walk; and so is the condition of an
# included file of settings. Before, it tries its test on wrong lines.
# usage: tests/shell/steps.sh [FOLDER]

cd "${1:-$(dirname -- "$0")/../..}" || exit 2

wrong='Steps::new|\bSteps *\{|\bSteps as\b|= Steps;|\bmem::|\b(replace|swap)\(|\btake\((&mut|\))|(^ *|[*.])(steps|matcher) =( .*;)?$'
while read -r line; do
    echo "$line" | grep -qE "$wrong" || { echo "steps.sh: it does not refuse: $line"; exit 1; }
done <<'LINES'
*steps = Steps::new();
let mut own = Steps::new();
self.dfa.is_match(line, &mut Steps {})
let before = replace(&mut self.steps, own);
let before = std::mem::take(steps);
swap(steps, own);
let before = self.own.take();
self.steps = own;
*matcher = other;
use cs_tree::Steps as Counter;
LINES

# (not in the definition, nor the counter of a new matcher or finder, nor that of a question of the walk, nor the tokens of an element)
found=$(find crates/cs_prefilter/src crates/cs_listing/src crates/cs_match/src crates/cs_search/src -name '*.rt' -exec grep -nHE "$wrong" {} + |
    grep -vE '^crates/cs_match/src/(matcher|spans).rt:[0-9]+: +(steps|read): Steps::new\(\),$' |
    grep -vE '^crates/cs_listing/src/entries.rt:[0-9]+: .*\blayers\.is_left_out\(path, (true|false), &mut Steps::new\(\)\)' |
    grep -vE '^crates/cs_listing/src/user_settings.rt:[0-9]+: +Ok\(rules\.decide\(&names, false, &mut Steps::new\(\)\)' |
    grep -vE '^crates/cs_listing/src/glob_parsing.rt:[0-9]+: +let ended = mem::replace\(&mut tokens, Vec::new\(alloc\)\);$')
# (no other crate names the counter)
found=$found$(grep -rnE 'cs_prefilter::|\bSteps::' crates/*/src | grep -vE '^crates/cs_(prefilter|listing|match)/')
made=$(grep -hc 'Steps::new' crates/cs_match/src/matcher.rt crates/cs_match/src/spans.rt | tr '\n' ' ')
[ -z "$found" ] && [ "$made" = '1 2 ' ] && exit 0
printf '%s\n' "$found"
echo "steps.sh: a counter of steps is made or replaced; Matcher::new and Finder::new make $made"
exit 1
