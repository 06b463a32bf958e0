-- Each thread of wrk asks with the token of a team of its own: `token-h1` is that of the first.
local threads = 0

function setup(thread)
  threads = threads + 1
  thread:set("number", threads)
end

function init()
  wrk.headers["Authorization"] = "Bearer token-h" .. number
end
