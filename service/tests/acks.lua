-- Acknowledgements for wrk: each request has BATCH of them, of one record, with three new files each. Each thread has
-- records of its own, and reserves names before it has used up those that it has. A connection waits PAUSE milliseconds before each request.
local batch = tonumber(os.getenv("BATCH") or "64")
local pause = tonumber(os.getenv("PAUSE") or "0")
local block = 65536
local threads = 0

function setup(thread)
  thread:set("number", threads)
  threads = threads + 1
end

function init()
  subtask, record = 0, number + 1
  name, left, asked = 0, 0, false
  wrk.method = "POST"
  wrk.headers["Content-Type"] = "application/json"
end

if pause > 0 then
  function delay()
    return pause
  end
end

function request()
  local calls = {}
  if left < block / 2 and not asked then
    asked = true
    calls[1] = string.format('{"call":"reserve","count":%d}', block)
  end
  for place = 1, batch do
    local fresh = ""
    if left >= 3 then
      fresh = string.format('"%.0f","%.0f","%.0f"', name, name + 1, name + 2)
      name, left = name + 3, left - 3
    end
    calls[#calls + 1] = string.format('{"call":"ack","id":%d,"subtask":"0.%d","fresh":[%s]}', record, subtask, fresh)
    subtask = subtask + 1
    if subtask == 4096 then
      subtask, record = 0, record + 2
    end
  end
  return wrk.format(nil, "/v1/jobs/load/calls", nil, '{"term":1,"calls":[' .. table.concat(calls, ",") .. "]}")
end

function response(status, headers, body)
  local first = body:match('"first":"(%d+)"')
  if first then
    name, left, asked = tonumber(first), block, false
  end
end
