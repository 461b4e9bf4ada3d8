# Connects with the Perl driver, sends a ping and disconnects. Words: HOST PORT MECHANISM, or --version.
use strict;
use warnings;
use MongoDB;

if (@ARGV == 1 && $ARGV[0] eq '--version') {
    print "$MongoDB::VERSION\n";
    exit 0;
}
my ($host, $port, $mechanism) = @ARGV;
eval {
    my $client = MongoDB::MongoClient->new(
        host => "mongodb://$host:$port", username => $ENV{INTEROP_USER}, password => $ENV{INTEROP_PASSWORD},
        auth_mechanism => $mechanism, auth_mechanism_properties => {}, db_name => 'admin', server_selection_timeout_ms => 10000,
    );
    $client->db('admin')->run_command([ ping => 1 ]);
    $client->disconnect;
    1;
} or do {
    my $fault = $@;
    print "$fault\n";
    exit((ref $fault && $fault->isa('MongoDB::AuthError')) ? 1 : 2);
};
