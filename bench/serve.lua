-- What `wrk` asks of a server: each line of a file is posted once to /ask, on a connection of its own.
--
--    wrk -t 1 -c CLIENTS -d SECONDSs -s serve.lua URL -- ASKS
--
-- It stops behind the last answer, and ends after the SECONDS, which are to be enough. Writes how many got status 200,
-- and when the first ask was sent and the last answer came, in seconds of a clock that all programs share.
local ffi = require("ffi")
ffi.cdef [[typedef struct { long seconds, nanoseconds; } moment; int clock_gettime(int clock, moment *out);]]

local function now()
  local read = ffi.new("moment")
  ffi.C.clock_gettime(1, read)
  return tonumber(read.seconds) + tonumber(read.nanoseconds) / 1e9
end

local thread

function setup(only)
  thread = only
end

function init(words)
  asks, asked, good = {}, 0, 0
  for line in io.lines(words[1]) do
    table.insert(asks, wrk.format("POST", "/ask", nil, line))
  end
  look = wrk.format("GET", "/totals")
end

-- `wrk` takes one request before it begins, to see how many each makes. Behind the last ask a client looks at the totals,
-- until the last answer has come.
function request()
  asked = asked + 1
  if asked == 2 then
    began = now()
  end
  return asks[math.max(asked - 1, 1)] or look
end

function response(status)
  if status == 200 then
    good = good + 1
  end
  if good == #asks then
    ended = now()
    wrk.thread:stop()
  end
end

function done()
  io.write(string.format("%d %.6f %.6f\n", thread:get("good"), thread:get("began"), thread:get("ended") or math.huge))
end
