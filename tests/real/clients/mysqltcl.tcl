# mysqltcl: tclsh mysqltcl.tcl HOST PORT USER PASSWORD.
package require mysqltcl
lassign $argv host port user password
if {[catch {set link [mysql::connect -host $host -port $port -user $user -password $password -encoding utf-8]} wrong]} { puts "login: $wrong"; exit 1 }
proc show {name body wanted} {
    if {[catch {uplevel #0 $body} found]} { set found [string map {"\n" " "} $found] }
    puts "$name: [expr {$found eq $wanted || ($wanted eq {1064} && [string match *syntax* $found]) ? {ok} : "[string range $found 0 110] in place of $wanted"}]"
}
proc one {text} { global link; return [lindex [mysql::sel $link $text -flatlist] end] }
proc all args { global link; foreach text $args { mysql::exec $link $text } }
show select {one {SELECT 41 + 1}} 42
show write {all {DROP TABLE IF EXISTS d.stacks} {CREATE TABLE d.stacks (id INT PRIMARY KEY AUTO_INCREMENT, v VARCHAR(40)) ENGINE=InnoDB CHARACTER SET utf8mb4} {INSERT INTO d.stacks (v) VALUES ('a'), ('b')}; one {SELECT COUNT(*) FROM d.stacks}} 2
show rollback {all BEGIN {INSERT INTO d.stacks (v) VALUES ('c')} ROLLBACK; one {SELECT COUNT(*) FROM d.stacks}} 2
show error {one {SELEC 1}} 1064
show text {one "SELECT 'gr\u00fc\u00dfe'"} "gr\u00fc\u00dfe"
all {SET SESSION max_recursive_iterations = 30000}
show rows {llength [mysql::sel $link {WITH RECURSIVE n(i) AS (SELECT 1 UNION ALL SELECT i + 1 FROM n WHERE i < 20000) SELECT i FROM n} -flatlist]} 20000
show ping {mysql::ping $link} 1
mysql::close $link
