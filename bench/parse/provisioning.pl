#!/usr/bin/env perl
# A line for each provisioning order: its fields where each of them is well, else that it is faulty.
use strict;
use warnings;
my ($n, $dirty, $first) = (0, 0, 0);
sub number { my ($word) = @_; return defined $word && $word =~ /^\d+$/ && $word < 4294967296 }
sub some { return $_[0] eq '' ? '{"none":null}' : sprintf '{"some":%d}', $_[0] }
sub value_of {
    my ($line) = @_;
    if ($n == 0) { return $line =~ /^0\|(\d+)$/ && number($1) ? sprintf('{"tstamp":%d}', $1) : undef }
    my ($num, $tn, $zip, @rest) = split /\|/, $line, -1;
    return undef unless defined $zip && number($num) && ($tn eq '' || number($tn)) && ($zip eq '' || number($zip));
    return undef unless @rest;
    @rest = () if @rest == 1 && $rest[0] eq '';
    return undef if @rest % 2;
    my ($last, @events) = (0);
    while (@rest) {
        my ($state, $tstamp) = splice @rest, 0, 2;
        return undef unless number($tstamp) && $last <= $tstamp;
        $last = $tstamp;
        push @events, sprintf '{"state":"%s","tstamp":%d}', $state, $tstamp;
    }
    return sprintf '{"events":[%s],"num":%d,"tn":%s,"zip":%s}', join(',', @events), $num, some($tn), some($zip);
}
while (my $line = <STDIN>) {
    my $size = length $line;
    chomp $line;
    my $end = $first + length $line;
    my $value = value_of($line);
    if (defined $value) {
        printf '{"class":"Ok","faults":[],"nerr":0,"next":%d,"record":%d,"span":[%d,%d],"value":%s}' . "\n", $end, $n, $first, $end, $value;
    } else {
        $dirty = 1;
        printf "{\"class\":\"Err\",\"record\":%d,\"span\":[%d,%d]}\n", $n, $first, $end;
    }
    $n++;
    $first += $size;
}
exit $dirty;
