# Answers calls of Perl's pack and unpack: one line for each line of standard input.
#
#   pack TEMPLATE ARGUMENT..   ok RECORD, or error
#   unpack TEMPLATE RECORD     ok VALUE.., or error
#
# Templates, records and strings are hex after a colon; an integer stands as it is.
use strict;
use warnings;
no warnings 'pack';

sub decoded {
    my ($word) = @_;
    return $word =~ /^:/ ? pack('H*', substr($word, 1)) : $word + 0;
}

sub coded {
    my ($bytes) = @_;
    return ':' . unpack('H*', $bytes);
}

$| = 1;
print "$^V\n";
while (my $line = <STDIN>) {
    chomp $line;
    my ($call, $template, @rest) = split / /, $line;
    $template = decoded($template);
    my @arguments = map { decoded($_) } @rest;
    my @values = eval { $call eq 'pack' ? pack($template, @arguments) : unpack($template, $arguments[0]) };
    print $@ ? "error\n" : join(' ', 'ok', map { coded($_) } @values) . "\n";
}
