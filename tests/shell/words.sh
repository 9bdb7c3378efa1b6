#!/bin/sh
# Fails if a file uses a word that the field has another word for: an old name that was replaced throughout the repository.
# usage: tests/shell/words.sh [FOLDER]
#
# OLD lists parts of names: `front` is found in prose, in `old_front` and in `OldFront`, not in `confront`. PHRASES lists regular
# expressions, also over the end of a line. EXCEPTIONS lists paths and the words that may stand there, each with the reason.

cd "${1:-$(dirname -- "$0")/../..}" || exit 2

exec perl -CSDA - <<'END_OF_PROGRAM'
use strict;
use warnings;

# old part: the field's word
my %old = map { /^\s*(\S+): (.+?)\s*$/ ? ($1 => $2) : () } split /\n/, <<'OLD';
    standing: DFA state
    standings: DFA states
    noisy: special (state)
    quiet: ordinary (state)
    needle: required literal
    needles: required literals
    sieve: prefilter
    sieves: prefilters
    stretch: encoded run
    stretches: encoded runs
    settled: normalized
    told: modelled, reported
    untold: unmodelled
    front: prefix, start
    fronts: prefixes, ancestors
    spells: decodes as
    spelled: decoded, written
    laid: written, encoded
    lays: writes, encodes
    laying: writing
    phrases: alternation of sequences
    hit: match, matching line
    hits: matches, matching lines
    affix: prefix or suffix
    affixes: prefixes and suffixes
    cell: transition, entry
    cells: transitions, entries
    chains: interleaved scans
    door: facade
    doors: facades
OLD

# an old phrase: what to write
my @phrases = map { /^\s*(.+?) : (.+?)\s*$/ ? [qr/\b(?:$1)\b/, $1, $2] : () } split /\n/, <<'PHRASES';
    parts\s+of\s+100 : %
    (?<!\bone )(?<!none )(?<!two )(?<!three )(?<!half )(?<!each )(?<!some )(?<!many )(?<!most )of\s+which : whose, or two sentences
    but\s+for : except
    and\s+not\s+else : only if
    [a-z]+_places?\b|places?_[a-z]+ : position, offset, index
    wants?\s+of\s+memory : out of memory, allocation failure
    wrong\s+programs? : mutant
    passe[sd]\s+over : skips
    is\s+no\s+text : is not text, non-text file
    plain\s+runs? : exact runs
    asks?\s+for\s+(all|one|each|the)\s+trigrams? : requires
    takes\s+no\s+memory : allocates nothing
    side\s+by\s+side : interleaved, adjacent
PHRASES

# path: word: reason
my @exceptions = map { /^\s*(\S+): (.+?): (.+?)\s*$/ ? [qr{^$1$}, qr/^(?:$2)$/, $3] : () } split /\n/, <<'EXCEPTIONS';
    tests/shell/words\.sh: .*: this list
    crates/cs_trigram/.*|docs/ARCHITECTURE\.md: hits?: a cache has hits and misses
    crates/cs_(trigram/proofs/position|index/proofs/reading/bytes)/.*: front: a clause of std's split_at
    crates/cs_match/proofs/lanes/four_lanes/.*: front: a clause of std's split_at_mut
    crates/cs_state/proofs/state_key/.*: front: a clause of std's as_chunks
    crates/codesearch/src/(disk|own_tree|progress|project|watched)\.rt: cell: std's type
EXCEPTIONS
@exceptions <= 20 or die "words.sh: more than twenty exceptions\n";

my $parts = qr/[A-Z]+(?=[A-Z][a-z])|[A-Z]?[a-z]+|[A-Z]+/;
my $files = `git ls-files 2> /dev/null` || `find . -type f -not -path './.git/*' -not -path '*/out/*' | sed 's,^\\./,,'`;
my ($found, %used) = (0);

sub report {
    my ($path, $line, $word, $instead) = @_;
    for my $exception (@exceptions) {
        if ($path =~ $exception->[0] && $word =~ $exception->[1]) {
            $used{$exception->[2]}++;
            return;
        }
    }
    print "$path:$line: $word: say $instead\n";
    $found++;
}

for my $path (split /\n/, $files) {
    # (a binary file, or one whose bytes are not text)
    next unless -T $path && open my $in, '<:encoding(UTF-8)', $path;
    my $text = do { local $/; local $SIG{__WARN__} = sub { }; <$in> } // next;
    my $line = 1;
    for my $row (split /\n/, $text, -1) {
        for my $part ($row =~ /$parts/g) {
            report($path, $line, lc $part, $old{lc $part}) if $old{lc $part};
        }
        $line++;
    }
    # (marks of comments at a line's begin do not part a phrase)
    (my $prose = $text) =~ s/\n[ \t]*(?:\/\/[\/!]?|--|#|\.\\")[ \t]*/\n/g;
    for my $phrase (@phrases) {
        while ($prose =~ /$phrase->[0]/gi) {
            report($path, 1 + (substr($prose, 0, $-[0]) =~ tr/\n//), $& =~ s/\s+/ /gr, $phrase->[2]);
        }
    }
}
for my $exception (@exceptions) {
    print "words.sh: nothing uses the exception: $exception->[2]\n" unless $used{$exception->[2]};
}
print "$found old words\n" if $found;
exit($found > 0);
END_OF_PROGRAM
