" Vim filetype plugin: scores are played by :make, which goes to the place of a refusal
if exists("b:did_ftplugin")
  finish
endif
let b:did_ftplugin = 1

compiler formula
setlocal commentstring=#\ %s
let b:undo_ftplugin = "setlocal commentstring< makeprg< errorformat<"
