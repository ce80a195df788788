# Prepared statements of mysql2: ruby prepared.rb HOST PORT USER PASSWORD.
require "mysql2"
host, port, user, password = ARGV
LINK = Mysql2::Client.new(host: host, port: port.to_i, username: user, password: password, encoding: "utf8mb4")
def show(name)
  wrong = begin yield rescue "#{$!.class} #{$!.message}" end
  puts "#{name}: #{wrong.nil? ? "ok" : wrong.tr("\n", " ")[0, 120]}"
end
def want(found, wanted) = found == wanted ? nil : "#{found.inspect[0, 60]} in place of #{wanted.inspect[0, 60]}"
def run(text, *values) = LINK.prepare(text).execute(*values, as: :array)&.to_a
LINK.query("DROP TABLE IF EXISTS d.p")
LINK.query("CREATE TABLE d.p (i BIGINT, u BIGINT UNSIGNED, f DOUBLE, c DECIMAL(20,4), t VARCHAR(60), w DATETIME(6), n INT, b LONGBLOB) CHARACTER SET utf8mb4")
show("types") do
  s = LINK.prepare("INSERT INTO d.p (i, u, f, c, t, w, n) VALUES (?, ?, ?, ?, ?, ?, ?)")
  [-5, 6].each { |i| s.execute(i, 18_446_744_073_709_551_615, 1.5, "12345678901234.5678", "grüße", "2024-02-29 12:34:56.250000", nil) }
  s = LINK.prepare("SELECT i, u, f, CAST(c AS CHAR), t, CAST(w AS CHAR), n FROM d.p WHERE i = ?")
  [-5, 6].map { |i| want(s.execute(i, as: :array).to_a[0], [i, 18_446_744_073_709_551_615, 1.5, "12345678901234.5678", "grüße", "2024-02-29 12:34:56.250000", nil]) }.compact.first
end
show("blob") do
  whole = (0..19).map { |k| (97 + k).chr * (1 << 20) }.join
  run("INSERT INTO d.p (i, b) VALUES (7, ?)", whole)
  want(run("SELECT b FROM d.p WHERE i = ?", 7)[0][0] == whole, true)
end
show("hundred") do
  all = (0..99).map { |k| LINK.prepare("SELECT ? + #{k}") }
  (0..2).flat_map { |round| all.each_with_index.map { |s, k| want(s.execute(1000 * round, as: :array).to_a[0][0].to_i, 1000 * round + k) } }.compact.first
end
show("undone") do
  LINK.query("BEGIN")
  run("INSERT INTO d.p (i) VALUES (?)", 99)
  LINK.query("ROLLBACK")
  want(run("SELECT COUNT(*) FROM d.p WHERE i = ?", 99)[0][0], 0)
end
