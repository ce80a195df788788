# DBD::mysql and DBD::MariaDB: perl dbi.pl mysql|MariaDB PREPARED HOST PORT USER PASSWORD.
use strict; use warnings; use utf8; use DBI;
binmode STDOUT, ':utf8';
my ($kind, $prepared, $host, $port, $user, $password) = @ARGV;
my %more = $kind eq 'mysql' ? (mysql_enable_utf8mb4 => 1, mysql_server_prepare => $prepared) : (mariadb_server_prepare => $prepared);
my $link = DBI->connect("DBI:$kind:host=$host;port=$port", $user, $password, { RaiseError => 1, PrintError => 0, AutoCommit => 1, %more });
sub show { my ($name, $test) = @_; my $wrong = eval { $test->() }; $wrong = $@ if $@; if (defined $wrong) { $wrong =~ s/\s+/ /g; $wrong = substr $wrong, 0, 120 } print "$name: ", $wrong // 'ok', "\n" }
sub want { my ($found, $wanted) = @_; return $found eq $wanted ? undef : "$found in place of $wanted" }
sub rows { return $link->selectall_arrayref($_[0]) }
show('select', sub { want(rows('SELECT 41 + 1')->[0][0], 42) });
show('write', sub {
    $link->do('DROP TABLE IF EXISTS d.stacks');
    $link->do('CREATE TABLE d.stacks (id INT PRIMARY KEY AUTO_INCREMENT, v VARCHAR(40)) ENGINE=InnoDB CHARACTER SET utf8mb4');
    $link->do("INSERT INTO d.stacks (v) VALUES ('a'), ('b')");
    want(rows('SELECT COUNT(*) FROM d.stacks')->[0][0], 2);
});
show('rollback', sub { $link->begin_work; $link->do("INSERT INTO d.stacks (v) VALUES ('c')"); $link->rollback; want(rows('SELECT COUNT(*) FROM d.stacks')->[0][0], 2) });
show('error', sub { eval { rows('SELEC 1') }; want($link->err // 0, 1064) });
show('text', sub { want(rows("SELECT 'grüße'")->[0][0], 'grüße') });
$link->do('SET SESSION max_recursive_iterations = 30000');
show('rows', sub { want(scalar @{ rows('WITH RECURSIVE n(i) AS (SELECT 1 UNION ALL SELECT i + 1 FROM n WHERE i < 20000) SELECT i FROM n') }, 20000) });
show('prepared', sub { my $s = $link->prepare('SELECT ? + 1'); $s->execute(41); my $found = $s->fetchrow_arrayref->[0]; $s->finish; want($found + 0, 42) });
show('ping', sub { $link->ping ? undef : 'no answer' });
$link->disconnect;
