-- Each request of wrk has another token, which no account has.
local threads, count = 0, 0

function setup(thread)
  threads = threads + 1
  thread:set("number", threads)
end

function request()
  count = count + 1
  return wrk.format("GET", nil, { Authorization = "Bearer made-up-" .. number .. "-" .. count })
end
