" What Vim does in a contract: comments, and :make, which asks nomos-explain.
if exists("b:did_ftplugin")
  finish
endif
let b:did_ftplugin = 1

setlocal comments=:// commentstring=//\ %s
compiler nomos
let b:undo_ftplugin = "setlocal comments< commentstring< makeprg< errorformat<"
