" Colours for modules of stratbench.

if exists("b:current_syntax")
  finish
endif

syntax iskeyword @,48-57,_,-,'
syntax match strategoVariable "\<[a-z_][A-Za-z0-9_'-]*\>"
syntax match strategoConstructor "\<[A-Z][A-Za-z0-9_'-]*\>"
" The head of a definition, which begins its line.
syntax match strategoDefinition "^\s*\zs[A-Za-z_][A-Za-z0-9_'-]*\ze\s*\%(([^()]*)\)\=\s*[:=]\%([^>]\|$\)"
syntax keyword strategoSection module signature sorts constructors rules strategies
syntax keyword strategoForm id fail all one some not where test if then else end rec prim
syntax match strategoNumber "-\=\<\d\+\>"
syntax match strategoOperator "<+\|->\|=>\|[;=:<>+*?!@|\\~]"
syntax region strategoString start=+"+ skip=+\\.+ end=+"+ contains=strategoEscape
syntax match strategoEscape "\\." contained
syntax region strategoQuotation matchgroup=strategoDelimiter start="`\+" end="`\+" contains=strategoMeta
syntax match strategoMeta "\$\{1,2}[*?]\{0,2}\h\w*" contained
syntax keyword strategoTodo TODO FIXME XXX contained
syntax region strategoComment start="//" end="$" contains=strategoTodo,@Spell
syntax region strategoComment start="/\*" end="\*/" contains=strategoTodo,@Spell
syntax sync ccomment strategoComment

highlight default link strategoSection Statement
highlight default link strategoForm Keyword
highlight default link strategoDefinition Function
highlight default link strategoConstructor Type
highlight default link strategoVariable Identifier
highlight default link strategoNumber Number
highlight default link strategoOperator Operator
highlight default link strategoString String
highlight default link strategoEscape SpecialChar
highlight default link strategoQuotation Special
highlight default link strategoDelimiter Delimiter
highlight default link strategoMeta Identifier
highlight default link strategoComment Comment
highlight default link strategoTodo Todo

let b:current_syntax = "stratego"
