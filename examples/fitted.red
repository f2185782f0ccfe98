;redcode
;name Tailor
;author The Core War kit
; A stone whose step is fitted to the core. An EQU selects the step by the core size, since a true comparison is 1 and a
; false one 0. Asserts reject the warrior if there is no step for the core, or if the step would lead back to the warrior.
;assert CORESIZE == 800 || CORESIZE == 8000 || CORESIZE == 55440
;assert MAXLENGTH >= 6 && MINDISTANCE >= MAXLENGTH

step    EQU     ((CORESIZE == 800) * 248 + (CORESIZE == 8000) * 3048 + (CORESIZE == 55440) * 13544)
;assert step % 8 == 0 && CORESIZE % 16 == 0

stone   MOV     bomb, *aim
        MOV     bomb, @aim
        ADD.F   bomb, aim       ; the bomb is also the step to the next targets
        JMP     stone
aim     DAT     #CORESIZE / 2 + 2, #3   ; 2 and 3 cells after, and so 6 and 5 before: never one of its own six
bomb    DAT     #step, #step
        END     stone
