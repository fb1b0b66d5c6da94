" Colours for model texts of Datemound. Of matches at one place the last that is defined wins.
if exists('b:current_syntax')
  finish
endif

syntax case match

syntax match gdpError /[^ \t]/
syntax match gdpDelimiter /[(),]/
syntax match gdpSign /[-+]/
syntax match gdpRelation /<=\|>=\|=/
syntax match gdpNumber /[0-9]\+\%([./][0-9]\+\)\?/
syntax match gdpName /[A-Za-z_][A-Za-z0-9_.]*/
syntax match gdpInfinite /inf[A-Za-z0-9_.]\@!/
syntax match gdpConnective /\%(not\|and\|or\|implies\|equivalent\|xor\|exactly\|atleast\|atmost\)[A-Za-z0-9_.]\@!/

" The first word of a line, and what may follow it alone.
syntax match gdpWord /\%(^[ \t]*\)\@<=\%(min\|max\|row\|logic\|end\)[A-Za-z0-9_.]\@!/
syntax match gdpWord /\%(^[ \t]*\)\@<=gdp[A-Za-z0-9_.]\@!/
syntax match gdpWord /\%(^[ \t]*\)\@<=var[A-Za-z0-9_.]\@!/ nextgroup=gdpVariable skipwhite
syntax match gdpWord /\%(^[ \t]*\)\@<=\%(boolean\|disjunct\)[A-Za-z0-9_.]\@!/ nextgroup=gdpDeclared skipwhite
syntax match gdpWord /\%(^[ \t]*\)\@<=disjunction[A-Za-z0-9_.]\@!/ nextgroup=gdpMode skipwhite
syntax match gdpVariable /[A-Za-z_][A-Za-z0-9_.]*/ contained nextgroup=gdpKind skipwhite
syntax match gdpDeclared /[A-Za-z_][A-Za-z0-9_.]*/ contained
syntax match gdpKind /\%(real\|int\)[A-Za-z0-9_.]\@!/ contained
syntax match gdpMode /\%(xor\|or\)[A-Za-z0-9_.]\@!/ contained

syntax match gdpComment /#.*/ contains=@Spell

highlight default link gdpComment Comment
highlight default link gdpConnective Operator
highlight default link gdpDeclared Identifier
highlight default link gdpDelimiter Delimiter
highlight default link gdpError Error
highlight default link gdpInfinite Constant
highlight default link gdpKind Type
highlight default link gdpMode StorageClass
highlight default link gdpName Normal
highlight default link gdpNumber Number
highlight default link gdpRelation Operator
highlight default link gdpSign Operator
highlight default link gdpVariable Identifier
highlight default link gdpWord Statement

let b:current_syntax = 'gdp'
