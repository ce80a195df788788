# mysql2, ActiveRecord, Sequel: ruby mysql2.rb mysql2|active_record|sequel HOST PORT USER PASSWORD.
kind, host, port, user, password = ARGV
def show(name)
  wrong = begin
    yield
  rescue StandardError => error
    "#{error.class} #{error.message}"
  end
  puts "#{name}: #{wrong.nil? ? 'ok' : wrong.to_s.gsub("\n", ' ')[0, 120]}"
end
def want(found, wanted) found == wanted ? nil : "#{found.inspect} in place of #{wanted.inspect}" end
case kind
when 'mysql2'
  require 'mysql2'
  link = Mysql2::Client.new(host: host, port: port.to_i, username: user, password: password, encoding: 'utf8mb4')
  rows = ->(text) { (link.query(text, as: :array) || []).to_a }
  begin_it = -> { rows.('BEGIN') }; rollback = -> { rows.('ROLLBACK') }
  prepared = -> { link.prepare('SELECT ? + 1').execute(41, as: :array).to_a }
  ping = -> { link.ping ? nil : 'no answer' }
when 'active_record'
  require 'active_record'
  ActiveRecord::Base.establish_connection(adapter: 'mysql2', host: host, port: port.to_i, username: user, password: password, encoding: 'utf8mb4', prepared_statements: true)
  link = ActiveRecord::Base.connection
  rows = ->(text) { (link.execute(text) || []).to_a.map { |row| row.is_a?(Hash) ? row.values : row } }
  begin_it = -> { link.begin_db_transaction }; rollback = -> { link.rollback_db_transaction }
  prepared = -> { link.exec_query('SELECT ? + 1', 'SQL', [ActiveRecord::Relation::QueryAttribute.new('a', 41, ActiveRecord::Type::Integer.new)], prepare: true).rows }
  ping = -> { link.active? ? nil : 'no answer' }
else
  require 'sequel'
  link = Sequel.connect(adapter: 'mysql2', host: host, port: port.to_i, user: user, password: password, encoding: 'utf8mb4', max_connections: 1)
  rows = ->(text) { text =~ /\A(SELECT|WITH)/ ? link.fetch(text).all.map(&:values) : (link.run(text); []) }
  begin_it = -> { rows.('BEGIN') }; rollback = -> { rows.('ROLLBACK') }
  prepared = -> { [[link.fetch('SELECT ? + 1 AS a', 41).first[:a]]] }
  ping = -> { link.test_connection ? nil : 'no answer' }
end
show('select') { want(rows.('SELECT 41 + 1')[0][0].to_i, 42) }
show('write') do
  rows.('DROP TABLE IF EXISTS d.stacks')
  rows.('CREATE TABLE d.stacks (id INT PRIMARY KEY AUTO_INCREMENT, v VARCHAR(40)) ENGINE=InnoDB CHARACTER SET utf8mb4')
  rows.("INSERT INTO d.stacks (v) VALUES ('a'), ('b')")
  want(rows.('SELECT COUNT(*) FROM d.stacks')[0][0].to_i, 2)
end
show('rollback') do
  begin_it.(); rows.("INSERT INTO d.stacks (v) VALUES ('c')"); rollback.()
  want(rows.('SELECT COUNT(*) FROM d.stacks')[0][0].to_i, 2)
end
show('error') do
  rows.('SELEC 1')
  'no error'
rescue StandardError => error
  error.message =~ /syntax/ ? nil : error.message
end
show('text') { want(rows.("SELECT 'grüße'")[0][0], 'grüße') }
rows.('SET SESSION max_recursive_iterations = 30000')
show('rows') { want(rows.('WITH RECURSIVE n(i) AS (SELECT 1 UNION ALL SELECT i + 1 FROM n WHERE i < 20000) SELECT i FROM n').size, 20_000) }
show('prepared') { want(prepared.()[0][0].to_i, 42) }
show('ping') { ping.() }
