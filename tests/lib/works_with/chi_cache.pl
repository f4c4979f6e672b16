# CHI: a cache of Perl.
use FindBin;
require "$FindBin::Bin/told.pl";
use CHI;

our $port;
my $cache = CHI->new(driver => "Redis", server => "127.0.0.1:$port", namespace => "names");
feature("set, get", sub { $cache->set("a", "one", "10m"); $cache->get("a") }, ["one"]);
feature("get_multi_hashref", sub { $cache->get_multi_hashref(["a", "none"]) }, [{ a => "one", none => undef }]);
feature("remove", sub { $cache->remove("a"); $cache->get("a") }, [undef]);
feature("get_keys", sub { $cache->set("b", "two", "10m"); $cache->get_keys }, ["b"]);
feature("clear", sub { $cache->clear; $cache->get("b") }, [undef]);
