# What the applications' scripts in Perl share: a line for each feature, as told.py has it.
use strict;
use warnings;
use JSON::PP;

our $port = $ARGV[0];

sub feature {
    my ($name, $work, $wanted, $left) = @_;
    my $json = JSON::PP->new->canonical->allow_nonref;
    my $found = eval { $json->encode([$work->()]) };
    my $error = defined $found ? ($found eq $json->encode($wanted) ? undef : "$found is not " . $json->encode($wanted)) : "$@";
    my $kind = defined $error && $left && $left->() ? "half" : "fail";
    print defined $error ? "$kind $name: " . join(" ", split " ", $error) . "\n" : "pass $name\n";
}
1;
