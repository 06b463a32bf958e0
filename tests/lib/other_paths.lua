-- Each request of wrk is for another path, whose beginning is the one that wrk was given.
local threads, count = 0, 0

function setup(thread)
  threads = threads + 1
  thread:set("number", threads)
end

function request()
  count = count + 1
  return wrk.format("GET", wrk.path .. number .. "-" .. count)
end
