#!/usr/bin/env perl
# A line for each record of a web log: its fields where each of them is well, else that it is faulty.
use strict;
use warnings;
my ($n, $dirty, $first) = (0, 0, 0);
while (my $line = <STDIN>) {
    my $size = length $line;
    chomp $line;
    my $end = $first + length $line;
    my $ok = 0;
    if ($line =~ m{^(\d{1,3})\.(\d{1,3})\.(\d{1,3})\.(\d{1,3}) (\S*) (\S*) \[([^\]]*)\] "(GET|PUT|POST|HEAD|DELETE|LINK|UNLINK) (\S*) HTTP/(\d+)\.(\d+)" (\d\d\d) (\d+)$}) {
        my ($a, $b, $c, $d, $remote, $auth, $date, $meth, $uri, $major, $minor, $code, $length) =
            ($1, $2, $3, $4, $5, $6, $7, $8, $9, $10, $11, $12, $13);
        if ($a < 256 && $b < 256 && $c < 256 && $d < 256 && $major < 256 && $minor < 256
            && $code >= 100 && $code < 600 && $length < 4294967296) {
            $ok = 1;
            printf '{"class":"Ok","faults":[],"nerr":0,"next":%d,"record":%d,"span":[%d,%d],"value":{"auth":{"%s":"%s"},"client":"%d.%d.%d.%d","date":"%s","length":%d,"remote":{"%s":"%s"},"request":{"meth":"%s","uri":"%s","version":{"major":%d,"minor":%d}},"response":%d}}' . "\n",
                $end, $n, $first, $end, ($auth eq '-' ? 'none' : 'id'), $auth, $a, $b, $c, $d, $date, $length,
                ($remote eq '-' ? 'none' : 'id'), $remote, $meth, $uri, $major, $minor, $code;
        }
    }
    if (!$ok) {
        $dirty = 1;
        printf "{\"class\":\"Err\",\"record\":%d,\"span\":[%d,%d]}\n", $n, $first, $end;
    }
    $n++;
    $first += $size;
}
exit $dirty;
