-- A client in Neovim for the set-up of nvim-dap that $SETUP holds: it starts the adapter that is named there, and debugs $PROGRAM.
local uv = vim.loop
local dap = { adapters = {}, configurations = {} }
package.loaded['dap'] = dap
assert(loadfile(vim.env.SETUP))()
local adapter, launch = dap.adapters[dap.configurations.go[1].type], dap.configurations.go[1]
assert(adapter.type == 'executable')
launch.program = launch.program:gsub('${file}', function() return vim.env.PROGRAM end)

local input, output = uv.new_pipe(false), uv.new_pipe(false)
local ended = false
uv.spawn(adapter.command, { args = adapter.args or {}, stdio = { input, output, nil } }, function() ended = true end)
local unread, messages, seq = '', {}, 0
output:read_start(function(_, part)
  unread = unread .. (part or '')
  while true do
    local _, stop, length = unread:find('Content%-Length: (%d+)\r\n\r\n')
    if not stop or #unread < stop + length then return end
    table.insert(messages, unread:sub(stop + 1, stop + length))
    unread = unread:sub(stop + length + 1)
  end
end)

local function wait(holds)
  local found
  assert(vim.wait(20000, function()
    while #messages > 0 and not found do
      local message = vim.fn.json_decode(table.remove(messages, 1))
      found = holds(message) and message
    end
    return found
  end, 10), 'the adapter said nothing')
  return found
end

local function ask(command, arguments)
  seq = seq + 1
  local body = vim.fn.json_encode({ seq = seq, type = 'request', command = command, arguments = arguments })
  input:write(('Content-Length: %d\r\n\r\n%s'):format(#body, body))
  local answer = wait(function(it) return it.type == 'response' and it.request_seq == seq end)
  assert(answer.success, answer.message)
  return answer.body
end

local function stopped()
  return wait(function(it) return it.event == 'stopped' end).body
end

local function place()
  local frame = ask('stackTrace', { threadId = 1 }).stackFrames[1]
  return frame.name .. ' ' .. frame.line
end

local seen = {}
ask('initialize', { adapterID = 'nvim-dap', linesStartAt1 = true, columnsStartAt1 = true, pathFormat = 'path' })
ask('launch', launch)
ask('configurationDone')
table.insert(seen, stopped().reason .. ' ' .. place())
for _, command in ipairs({ 'next', 'stepBack', 'continue', 'reverseContinue' }) do
  ask(command, { threadId = 1 })
  table.insert(seen, stopped().reason .. ' ' .. place())
end
ask('disconnect')
assert(vim.wait(5000, function() return ended end, 10), 'the adapter does not end')
io.stdout:write(table.concat(seen, '\n') .. '\n')
