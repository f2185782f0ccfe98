;redcode
;name Hail
;author The Core War kit
; A stone: bombs the core in large steps until it hits its own loop, and then clears the rest of the core.

step    EQU     2365
first   EQU     (stone + step)

stone   SPL     #0, <-100       ; one more process each time, and all of them throw
        MOV     bomb, @aim
        ADD     #step, aim
        DJN.F   stone + 1, <-200
bomb    DAT     <2, <4
aim     DAT     #0, first
        END     stone
