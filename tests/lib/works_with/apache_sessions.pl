# Apache::Session::Browseable: sessions, and the list of them.
use FindBin;
require "$FindBin::Bin/told.pl";
use Apache::Session::Browseable::Redis;

our $port;
my $options = { server => "127.0.0.1:$port" };

sub kept {
    tie my %first, "Apache::Session::Browseable::Redis", undef, $options;
    $first{user} = "7";
    my $id = $first{_session_id};
    untie %first;
    tie my %again, "Apache::Session::Browseable::Redis", $id, $options;
    my $found = $again{user};
    untie %again;
    return $found;
}

feature("sessions", \&kept, ["7"]);
feature("list of sessions", sub { scalar keys %{ Apache::Session::Browseable::Redis->get_key_from_all_sessions($options) } }, [1]);
