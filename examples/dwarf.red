;redcode
;name Dwarf
;author A. K. Dewdney
; Throws a bomb at every fourth cell. If the core size is a multiple of four, it never hits itself.

step    EQU     4
;assert CORESIZE % step == 0

loop    ADD     #step, bomb     ; four cells ahead
        MOV     bomb, @bomb     ; throws the bomb there
        JMP     loop
bomb    DAT     #0, #0          ; its B-number is the distance to the next target
        END     loop
