# Perl's pack and unpack as a peer; takes the orders of peers.c, with templates by `perlpack` and `perlread`.
use strict;
use warnings;
use Time::HiRes qw(clock_gettime CLOCK_MONOTONIC CLOCK_PROCESS_CPUTIME_ID);

$| = 1;
my (%works, $work);

sub time_pack {
    my ($template, $values, $n) = @_;
    my $out;
    my $start = clock_gettime(CLOCK_PROCESS_CPUTIME_ID);
    for (1 .. $n) { $out = pack($template, @$values) }
    return clock_gettime(CLOCK_PROCESS_CPUTIME_ID) - $start;
}

sub time_read {
    my ($template, $record, $n) = @_;
    my @out;
    my $start = clock_gettime(CLOCK_PROCESS_CPUTIME_ID);
    for (1 .. $n) { @out = unpack($template, $record) }
    return clock_gettime(CLOCK_PROCESS_CPUTIME_ID) - $start;
}

sub crowd {
    my ($records) = @_;
    my @legs = (61, 0, 88, 7, 100, 3);
    my (@packed, $sum);
    my $start = clock_gettime(CLOCK_MONOTONIC);
    for my $i (0 .. $records - 1) {
        push @packed, pack('a8 A20 n N c6 b12 H8', sprintf('%08d', $i), 'Ada Lind', $i % 1001, $i, @legs,
            '110110101100', '0badcafe');
    }
    my $middle = clock_gettime(CLOCK_MONOTONIC);
    for my $record (@packed) {
        my @values = unpack('a8 A20 n N c6 b12 H8', $record);
        $sum += $values[2] + $values[3];
    }
    my $end = clock_gettime(CLOCK_MONOTONIC);
    return sprintf('%.0f %.0f %.0f', 1e9 * ($middle - $start), 1e9 * ($end - $middle), $sum);
}

while (my $line = <STDIN>) {
    chomp $line;
    my ($order, $rest) = split / /, $line, 2;
    my @rest = defined $rest ? split(/ /, $rest) : ();
    if ($order eq 'work') { $work = $works{$rest} = { values => [] } }
    elsif ($order eq 'perlpack') { $work->{pack} = $rest }
    elsif ($order eq 'perlread') { $work->{read} = $rest }
    elsif ($order eq 'text') { push @{ $work->{values} }, $rest }
    elsif ($order eq 'list' || $order eq 'reals') { push @{ $work->{values} }, map { $_ + 0 } @rest }
    elsif ($order eq 'record') { $work->{record} = pack('H*', $rest) }
    elsif ($order eq 'time') {
        my $w = $works{ $rest[1] };
        my $seconds = $rest[2] eq 'pack'
            ? time_pack($w->{pack}, $w->{values}, $rest[3]) : time_read($w->{read}, $w->{record}, $rest[3]);
        printf "%.0f\n", 1e9 * $seconds;
    }
    elsif ($order eq 'show') {
        my $w = $works{ $rest[1] };
        print $rest[2] eq 'pack'
            ? unpack('H*', pack($w->{pack}, @{ $w->{values} })) : map({ "$_," } unpack($w->{read}, $w->{record})), "\n";
    }
    elsif ($order eq 'crowd') { print crowd($rest[2]), "\n" }
}
