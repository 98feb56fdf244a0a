" :compiler zar, and then :make checks the file of the window. `lint` of tools/ and `zar` stand on the path.
if exists("current_compiler")
  finish
endif
let current_compiler = "zar"
CompilerSet makeprg=lint\ %:S
CompilerSet errorformat=%f:%l:%c:\ %m,%f:\ %m
