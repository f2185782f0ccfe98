" Redcode, as the Core War kit reads it.
if exists("b:current_syntax")
  finish
endif
syntax case ignore
syntax match redcodeOpcode "\v<(@OPCODES@)>"
syntax match redcodeDirective "\v<(@DIRECTIVES@)>"
syntax match redcodeModifier "\v(\.\s*)@<=(@MODIFIERS@)>"
syntax match redcodeNumber "\v<\d+>"
syntax match redcodeOperator "[-#$*@{}<>+/%=!&|()]"
syntax match redcodeComment ";.*$" contains=@Spell
" An assert is a comment that is read.
syntax match redcodeAssert "^\s*;assert\>"
syntax case match
syntax match redcodePredefined "\v<(@PREDEFINED@)>"
highlight default link redcodeOpcode Statement
highlight default link redcodeDirective PreProc
highlight default link redcodeModifier Type
highlight default link redcodeNumber Number
highlight default link redcodeOperator Operator
highlight default link redcodePredefined Constant
highlight default link redcodeAssert PreProc
highlight default link redcodeComment Comment
let b:current_syntax = "redcode"
