# Prepared statements of DBD::mysql and DBD::MariaDB: perl prepared.pl mysql|MariaDB HOST PORT USER PASSWORD.
use strict; use warnings; use utf8; use DBI qw(:sql_types);
binmode STDOUT, ':utf8';
my ($kind, $host, $port, $user, $password) = @ARGV;
my %more = $kind eq 'mysql' ? (mysql_enable_utf8mb4 => 1, mysql_server_prepare => 1) : (mariadb_server_prepare => 1);
my $link = DBI->connect("DBI:$kind:host=$host;port=$port", $user, $password, { RaiseError => 1, PrintError => 0, AutoCommit => 1, LongReadLen => 30_000_000, %more });
sub show { my ($name, $test) = @_; my $wrong = eval { $test->() }; $wrong = $@ if $@; if (defined $wrong) { $wrong =~ s/\s+/ /g; $wrong = substr $wrong, 0, 120 } print "$name: ", $wrong // 'ok', "\n" }
sub want { my ($found, $wanted) = @_; return $found eq $wanted ? undef : substr($found, 0, 60) . " in place of " . substr($wanted, 0, 60) }
$link->do('DROP TABLE IF EXISTS d.p');
$link->do('CREATE TABLE d.p (i BIGINT, u BIGINT UNSIGNED, f DOUBLE, c DECIMAL(20,4), t VARCHAR(60), w DATETIME(6), n INT, b LONGBLOB) CHARACTER SET utf8mb4');
show('types', sub {
    my $s = $link->prepare('INSERT INTO d.p (i, u, f, c, t, w, n) VALUES (?, ?, ?, ?, ?, ?, ?)');
    $s->execute($_, '18446744073709551615', 1.5, '12345678901234.5678', 'grüße', '2024-02-29 12:34:56.250000', undef) for -5, 6;
    $s = $link->prepare('SELECT i, u, f, c, t, w, n FROM d.p WHERE i = ?');
    for my $i (-5, 6) {
        $s->execute($i);
        my $wrong = want(join('|', map { $_ // 'NULL' } @{ $s->fetchrow_arrayref }), "$i|18446744073709551615|1.5|12345678901234.5678|grüße|2024-02-29 12:34:56.250000|NULL");
        $s->finish;
        return $wrong if defined $wrong;
    }
    return undef;
});
show('blob', sub {
    my $s = $link->prepare('INSERT INTO d.p (i, b) VALUES (7, ?)');
    $s->bind_param(1, join('', map { chr(97 + $_) x (1 << 20) } 0 .. 19), SQL_BLOB);
    $s->execute;
    $s = $link->prepare('SELECT b FROM d.p WHERE i = ?');
    $s->execute(7);
    my $found = $s->fetchrow_arrayref->[0];
    $s->finish;
    want(join('|', length $found, substr($found, 5 << 20, 1), substr($found, -1)), (20 << 20) . '|f|t');
});
show('hundred', sub {
    my @all = map { $link->prepare("SELECT ? + $_") } 0 .. 99;
    for my $round (0 .. 2) {
        for my $k (0 .. 99) {
            $all[$k]->bind_param(1, 1000 * $round, SQL_INTEGER);
            $all[$k]->execute;
            my $found = $all[$k]->fetchrow_arrayref->[0] + 0;
            $all[$k]->finish;
            return "$found in place of " . (1000 * $round + $k) if $found != 1000 * $round + $k;
        }
    }
    return undef;
});
show('undone', sub {
    $link->begin_work;
    $link->prepare('INSERT INTO d.p (i) VALUES (?)')->execute(99);
    $link->rollback;
    want($link->selectall_arrayref('SELECT COUNT(*) FROM d.p WHERE i = 99')->[0][0], 0);
});
$link->disconnect;
