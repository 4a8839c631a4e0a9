#!/usr/bin/env perl
# A line for each account of a mainframe extract (EBCDIC, blocks of 35 bytes): its fields where each of them is
# well, else that it is faulty.
use strict;
use warnings;
use Encode;
binmode STDIN;
my $code = Encode::find_encoding('cp37');
my ($n, $dirty, $first) = (0, 0, 0);
my %kinds = ('SAV' => 'SAVINGS', 'CHK' => 'CHECKING', 'LN ' => 'LOAN');
while (read(STDIN, my $block, 35) == 35) {
    my $end = $first + 35;
    my ($number, $kind, $cents, $branch, $opened, $holder) = unpack 'a6 a3 l> n a8 a12', $block;
    ($number, $kind, $opened, $holder) = map { $code->decode($_) } $number, $kind, $opened, $holder;
    if (defined $kinds{$kind} && 'A00000' le $number && $number le 'Z99999' && ($kind eq 'LN ' || $cents >= 0)
        && 1 <= $branch && $branch <= 300 && $opened =~ /^\d{8}$/ && 19000101 <= $opened && $opened <= 20991231) {
        printf '{"class":"Ok","faults":[],"nerr":0,"next":%d,"record":%d,"span":[%d,%d],"value":{"branch":%d,"cents":%d,"holder":"%s","kind":"%s","number":"%s","opened":%d}}' . "\n",
            $end, $n, $first, $end, $branch, $cents, $holder, $kinds{$kind}, $number, $opened;
    } else {
        $dirty = 1;
        printf "{\"class\":\"Err\",\"record\":%d,\"span\":[%d,%d]}\n", $n, $first, $end;
    }
    $n++;
    $first = $end;
}
exit $dirty;
