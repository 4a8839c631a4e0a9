#!/usr/bin/env perl
# A line for each reading of a sensor: its fields where each of them is well, else that it is faulty.
use strict;
use warnings;
my ($n, $dirty, $first) = (0, 0, 0);
while (my $line = <STDIN>) {
    my $size = length $line;
    chomp $line;
    my $end = $first + length $line;
    if ($line =~ /^([^|]*)\|([-+]?\d+)\|([-+]?\d+)$/ && 0 <= $2 && $2 < 24 && -60 <= $3 && $3 <= 60) {
        printf '{"class":"Ok","faults":[],"nerr":0,"next":%d,"record":%d,"span":[%d,%d],"value":{"celsius":%d,"hour":%d,"sensor":"%s"}}' . "\n",
            $end, $n, $first, $end, $3, $2, $1;
    } else {
        $dirty = 1;
        printf "{\"class\":\"Err\",\"record\":%d,\"span\":[%d,%d]}\n", $n, $first, $end;
    }
    $n++;
    $first += $size;
}
exit $dirty;
