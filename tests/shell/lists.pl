# Prints the content of an index independent of the order of its names: the paths and the names in byte order, and for each
# trigram, in hexadecimal, a line with the ranks of its files in that order.
# usage: perl lists.pl INDEX
use strict;
use warnings;

open my $file, '<:raw', $ARGV[0] or die "$ARGV[0]: $!\n";
my $index = do { local $/; <$file> };
substr($index, 0, 16) eq "csearch index 1\n" && substr($index, -16) eq "\ncsearch trailr\n" or die "no index\n";
my ($paths, $names, $lists, $places, $entries) = unpack 'N5', substr $index, -36;

my @paths = split /\0/, substr($index, $paths, $names - $paths);
print "path $_\n" for sort @paths;
my @names = split /\0/, substr($index, $names, $lists - $names);
my @order = sort { $names[$a] cmp $names[$b] } 0 .. $#names;
my @rank;
@rank[@order] = 0 .. $#order;
print "name $names[$_]\n" for @order;

# The varint at an offset: seven bits a byte, the lowest first. The offset is moved past it.
sub varint {
    my $at = shift;
    my ($number, $shift) = (0, 0);
    while (1) {
        my $byte = ord substr $index, $$at++, 1;
        $number |= ($byte & 127) << $shift;
        return $number if $byte < 128;
        $shift += 7;
    }
}

for (my $at = $entries; $at < length($index) - 36; $at += 11) {
    my ($trigram, $count, $offset) = unpack 'a3 N N', substr $index, $at, 11;
    next if $count == 0;
    my $list = $lists + $offset;
    substr($index, $list, 3) eq $trigram or die "a list of another trigram\n";
    my @ids;
    my $id = -1;
    for ($list += 3; my $delta = varint(\$list);) {
        $id += $delta;
        push @ids, $rank[$id];
    }
    @ids == $count or die "a wrong count\n";
    print unpack('H*', $trigram), ': ', join(' ', sort { $a <=> $b } @ids), "\n";
}
