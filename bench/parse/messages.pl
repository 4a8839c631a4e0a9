#!/usr/bin/env perl
# A line for each message behind a length word: its fields where each of them is well, else that it is faulty.
use strict;
use warnings;
binmode STDIN;
my ($n, $dirty, $first) = (0, 0, 0);
sub body_of {
    my ($bytes) = @_;
    my ($kind, $rest) = unpack 'C a*', $bytes;
    if ($kind == 1) {
        my ($size, $words) = unpack 'n a*', $rest;
        return length $words == $size ? sprintf('{"body":{"text":{"size":%d,"words":"%s"}},"kind":1}', $size, $words) : undef;
    } elsif ($kind == 2) {
        my ($count, $more) = unpack 'C a*', $rest;
        return undef unless length $more == 2 * $count;
        return sprintf '{"body":{"trace":{"count":%d,"samples":[%s]}},"kind":2}', $count, join(',', unpack 's>*', $more);
    } elsif ($kind == 3) {
        return undef unless length $rest == 6;
        my ($sensor, $value) = unpack 'N s>', $rest;
        return $sensor ? sprintf('{"body":{"reading":{"sensor":%d,"value":%d}},"kind":3}', $sensor, $value) : undef;
    }
    return undef;
}
while (read(STDIN, my $word, 4) == 4) {
    my $size = unpack('n', $word) - 4;
    last if read(STDIN, my $bytes, $size) != $size;
    my $begin = $first + 4;
    my $end = $begin + $size;
    my $value = body_of($bytes);
    if (defined $value) {
        printf '{"class":"Ok","faults":[],"nerr":0,"next":%d,"record":%d,"span":[%d,%d],"value":%s}' . "\n", $end, $n, $begin, $end, $value;
    } else {
        $dirty = 1;
        printf "{\"class\":\"Err\",\"record\":%d,\"span\":[%d,%d]}\n", $n, $begin, $end;
    }
    $n++;
    $first = $end;
}
exit $dirty;
