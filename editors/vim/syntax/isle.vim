" ISLE: the colours
if exists('b:current_syntax')
  finish
endif

syntax iskeyword 33-39,42-58,60-63,65-126,128-255
syntax sync fromstart

" A list names in front what it is: a definition, a part of one, or a term.
syntax match isleTerm /(\_s*\zs\k\+/
syntax match isleKeyword /(\_s*\zs\%(type\|rule\|extractor\|extern\|convert\|attr\|spec\|macro\|model\|form\|state\|instantiate\)\k\@!/
syntax match isleKeyword /(\_s*\zs\%(primitive\|enum\|struct\|let\|if-let\|if\|and\)\k\@!/
syntax match isleKeyword /(\_s*\zs\%(provide\|require\|match\|modifies\|switch\|with\|as\|const\|default\|args\|ret\|tag\|veri\)\k\@!/
syntax match isleModifier /\%((\_s*extern\_s\+\)\@<=\%(constructor\|extractor\|const\)\k\@!/
syntax match isleModifier /\%((\_s*extern\_s\+extractor\_s\+\)\@<=infallible\k\@!/
syntax match isleModifier /\%((\_s*type\_s\+\k\+\_s\+\)\@<=\%(extern\|nodebug\)\k\@!/
syntax match isleType /\%((\_s*type\_s\+\)\@<=\k\+/

syntax match isleVariant /[^[:blank:](@.;)$0-9-]\k*\.\k\+/
syntax match isleConstant /\$\k*/
syntax match isleNumber /\k\@1<!-\=\d[0-9A-Fa-f_xXoO]*/
syntax match isleNumber /\k\@1<!#\%(b[01]\+\|x\x\+\)\k\@!/
syntax match isleBoolean /\k\@1<!\%(true\|false\)\k\@!/
syntax match isleWildcard /\k\@1<!_\k\@!/
syntax match isleBinder /@/

" A declaration: its flags, its term, and types.
syntax region isleDeclaration matchgroup=isleParenthesis start=/(\ze\_s*decl\k\@!/ end=/)/ contains=isleResult,isleTerm,isleDeclared,isleFlag,isleTypes,@isleComments
syntax match isleResult contained /\k\+/
syntax match isleDeclared contained /\k\+\ze\_s*(/
syntax match isleFlag contained /\k\@1<!\%(pure\|multi\|partial\|rec\)\k\@!\%(\_s*(\)\@!/
syntax match isleFlag contained /\k\@1<!decl\k\@!/
syntax region isleTypes contained matchgroup=isleParenthesis start=/(/ end=/)/ contains=isleResult,@isleComments

syntax match isleComment /;.*$/ contains=isleTodo,@Spell
syntax region isleBlockComment start=/(;/ end=/;)/ contains=isleBlockComment,isleTodo,@Spell fold
syntax cluster isleComments contains=isleComment,isleBlockComment
syntax keyword isleTodo contained TODO FIXME XXX

highlight default link isleTerm Function
highlight default link isleDeclared Function
highlight default link isleVariant Constant
highlight default link isleResult Type
highlight default link isleType Type
highlight default link isleConstant Constant
highlight default link isleNumber Number
highlight default link isleBoolean Boolean
highlight default link isleWildcard Special
highlight default link isleBinder Operator
highlight default link isleModifier StorageClass
highlight default link isleFlag Keyword
highlight default link isleKeyword Keyword
highlight default link isleComment Comment
highlight default link isleBlockComment Comment
highlight default link isleTodo Todo

let b:current_syntax = 'isle'
