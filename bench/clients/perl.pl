# Perl's DBD::Pg, as bench/clients/cases.py asks it.
use strict;
use warnings;
use DBI;
use Time::HiRes qw(time sleep);

my ($port, $database) = @ARGV;
my %connections;
$| = 1;
binmode STDIN, ':utf8';
binmode STDOUT, ':utf8';

sub get {
    my ($dbh, $count, $ms) = @_;
    my $until = time + $ms / 1000;
    while (1) {
        while ($count > 0 and my $note = $dbh->func('pg_notifies')) {
            print "$note->[1] $note->[0] $note->[2]\n";
            $count--;
        }
        my $left = $until - time;
        return if $count <= 0 or $left <= 0;
        vec(my $ready = '', $dbh->{pg_socket}, 1) = 1;
        select $ready, undef, undef, $left;
    }
}

while (my $line = <STDIN>) {
    chomp $line;
    my ($word, $number, $rest) = split / /, $line, 3;
    eval {
        if ($word eq 'open') {
            my %how = (RaiseError => 1, PrintError => 0, PrintWarn => 0, AutoCommit => 1);
            $connections{$number} = DBI->connect("dbi:Pg:host=127.0.0.1;port=$port;dbname=$database", 'me', '', \%how);
        } elsif ($word eq 'run') {
            $connections{$number}->do($rest);
        } elsif ($word eq 'own') {
            my $dbh = $connections{$number};
            $dbh->ping or die 'no answer';
            $dbh->begin_work;
            $dbh->do("NOTIFY c, 'never'");
            $dbh->rollback;
            $dbh->{AutoCommit} = $dbh->{pg_server_prepare} = 0;
            $dbh->do('SELECT pg_notify(?, ?)', undef, 'c', 'kept');
            $dbh->commit;
            $dbh->{AutoCommit} = 1;
            $dbh->do("NOTIFY c, 'behind'");
        } elsif ($word eq 'get') {
            get($connections{$number}, split / /, $rest);
        } elsif ($word eq 'close') {
            delete($connections{$number})->disconnect;
        }
        print "ok\n";
        1;
    } or print 'error ', join(' ', split ' ', $@), "\n";
}
