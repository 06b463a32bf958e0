-- Has wrk keep each different body of a reply, in a file of its own in the folder that BODIES names.

local threads = 0

function setup(thread)
  threads = threads + 1
  thread:set("number", threads)
end

function init()
  seen, kept = {}, 0
end

function response(status, headers, body)
  if seen[body] == nil then
    seen[body], kept = true, kept + 1
    local file = io.open(os.getenv("BODIES") .. "/" .. number .. "-" .. kept, "wb")
    file:write(body)
    file:close()
  end
end
