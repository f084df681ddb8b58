" Scripts of mdlsim: NAME.replay, NAME.run, NAME.lock.
autocmd BufRead,BufNewFile *.replay,*.run,*.lock setfiletype mdlsim
