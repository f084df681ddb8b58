" Vim syntax file for scripts of mdlsim.
" Copy the folders ftdetect and syntax into ~/.vim. The rules of scripts are in docs/LANGUAGE.md; `make docs` compares the key words.
if exists("b:current_syntax")
    finish
endif

syntax case match
syntax match mdlsimComment "^#.*$"
syntax match mdlsimSession "^\s*[1-9][0-9]\{0,3}\>"

syntax keyword mdlsimKeyword ADD ALTER BEGIN COMMIT COPY CREATE DELETE DROP FLUSH GET_LOCK INPLACE INSERT KILL LOCK LOW_PRIORITY QUERY READ RELEASE
syntax keyword mdlsimKeyword RELEASE_LOCK RENAME ROLLBACK SAVEPOINT SCHEMA SELECT START TABLE TABLES TIMEOUT TO TRANSACTION UNLOCK UPDATE WITH WRITE
syntax keyword mdlsimMode IX S SH SNRW SNW SR SRO SU SW SWLP X

highlight default link mdlsimComment Comment
highlight default link mdlsimSession Number
highlight default link mdlsimKeyword Statement
highlight default link mdlsimMode Type

let b:current_syntax = "mdlsim"
