;redcode
;name Imp
;author A. K. Dewdney
; Copies itself to the next cell forever. It rarely wins, but it is hard to kill.
        MOV.I   0, 1
