-- Runs jobs of VCODE in nvim-dap, forward and back: require('vcode_dap').setup()
--
-- dap.continue() begins the job in which the cursor is. dap.step_back() and dap.reverse_continue() go back, and `at N`
-- in the REPL goes to a state by its number. :VcodeStops sets breakpoints at calls of functions, and where more than a
-- number of words are held.
local M = {}

local JOB = '^%s*JOB%s+%S+%s+%d+%s+%d+%s+%d+%s+%d+%s*$'

--- The number of the job in which the cursor is, counted from 1.
function M.job_at_cursor()
  local last = vim.api.nvim_win_get_cursor(0)[1]
  local count = 0
  for _, line in ipairs(vim.api.nvim_buf_get_lines(0, 0, last, false)) do
    if line:match(JOB) then
      count = count + 1
    end
  end
  return math.max(count, 1)
end

--- Stops at calls of functions of these names, and at states like `words>100`, `entries>10` or `makes>1000`.
function M.stops(names)
  local session = require('dap').session()
  if not session then
    vim.notify('No job runs', vim.log.levels.WARN)
    return
  end
  local breakpoints = vim.tbl_map(function(name) return { name = name } end, names)
  session:request('setFunctionBreakpoints', { breakpoints = breakpoints }, function(failed, answer)
    if failed then
      vim.notify(failed.message or vim.inspect(failed), vim.log.levels.ERROR)
      return
    end
    for place, breakpoint in ipairs(answer.breakpoints) do
      if not breakpoint.verified then
        vim.notify(names[place] .. ': ' .. (breakpoint.message or 'is nowhere'), vim.log.levels.WARN)
      end
    end
  end)
end

--- Registers vjobs-dap. OPTIONS may have its `program`, and the `memory` in MB for states that are kept.
function M.setup(options)
  options = options or {}
  local dap = require('dap')
  dap.adapters.vjobs = { type = 'executable', command = options.program or 'vjobs-dap' }
  dap.configurations.vcode = {
    {
      type = 'vjobs',
      request = 'launch',
      name = 'VCODE: the job at the cursor',
      batch = '${file}',
      job = M.job_at_cursor,
      memory = options.memory or 256,
    },
  }
  vim.api.nvim_create_user_command('VcodeStops', function(command) M.stops(command.fargs) end, { nargs = '*' })
end

return M
