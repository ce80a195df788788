-- LuaDBI: lua luadbi.lua HOST PORT USER PASSWORD.
local host, port, user, password = ...
local link, wrong = require('DBI').Connect('MySQL', 'd', user, password, host, tonumber(port))
if not link then print('login: ' .. tostring(wrong)) os.exit(1) end
link:autocommit(true)
local statement, fault = link:prepare('SELECT ? + 1')
if not statement then print('prepared: ' .. tostring(fault)) os.exit(0) end
statement:execute(41)
print('prepared: ' .. (tonumber(statement:fetch()[1]) == 42 and 'ok' or 'another row'))
statement:close()
link:close()
