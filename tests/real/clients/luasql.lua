-- LuaSQL: lua luasql.lua HOST PORT USER PASSWORD.
local host, port, user, password = ...
local link, wrong = require('luasql.mysql').mysql():connect('d', user, password, host, tonumber(port))
if not link then print('login: ' .. wrong) os.exit(1) end
local function one(text)
  local found, fault = link:execute(text)
  if not found then error(fault, 0) end
  return type(found) == 'number' and found or found:fetch()
end
local function show(name, test, wanted)
  local _, found = pcall(test)
  found = tostring(found)
  print(name .. ': ' .. ((found == wanted or wanted == '1064' and found:find('syntax')) and 'ok' or found .. ' in place of ' .. wanted))
end
show('select', function() return one('SELECT 41 + 1') end, '42')
show('write', function()
  one('DROP TABLE IF EXISTS d.stacks')
  one('CREATE TABLE d.stacks (id INT PRIMARY KEY AUTO_INCREMENT, v VARCHAR(40)) ENGINE=InnoDB CHARACTER SET utf8mb4')
  one("INSERT INTO d.stacks (v) VALUES ('a'), ('b')")
  return one('SELECT COUNT(*) FROM d.stacks')
end, '2')
show('rollback', function() one('BEGIN') one("INSERT INTO d.stacks (v) VALUES ('c')") one('ROLLBACK') return one('SELECT COUNT(*) FROM d.stacks') end, '2')
show('error', function() return one('SELEC 1') end, '1064')
one('SET NAMES utf8mb4')
show('text', function() return one("SELECT 'gr\195\188\195\159e'") end, 'gr\195\188\195\159e')
one('SET SESSION max_recursive_iterations = 30000')
show('rows', function() return link:execute('WITH RECURSIVE n(i) AS (SELECT 1 UNION ALL SELECT i + 1 FROM n WHERE i < 20000) SELECT i FROM n'):numrows() end, '20000')
link:close()
