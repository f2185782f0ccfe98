;redcode
;name Dusk
;author The Core War kit
; A vampire: its bombs are jumps to a trap. A process that executes one splits there forever, so that the rest of its
; warrior gets fewer and fewer turns. After a thousand bombs a core clear removes what is left, the trap last.
;assert CORESIZE == 8000

step    EQU     3048            ; a multiple of eight, as is the core: the 1000th bomb would hit the fang itself

trap    SPL     0               ; each execution adds a process of the victim
        SPL     trap
        JMP     trap

dust    DAT     0, 0
pace    DAT     #-step, #step
        DAT     0, 0            ; one bomb hits this cell
front   DAT     0, last - front
        FOR     6
        DAT     0, 0
        ROF

; Since the fang is copied forward by its B-number, its jump back has to be longer by the same distance.
fang    JMP     trap - step, step
throw   MOV     fang, @fang
        ADD.F   pace, fang      ; lowers the A-number by as much as it raises the B-number
        DJN     throw, #998
sweep   MOV     dust, >front
        DJN     sweep, #CORESIZE + dust - last
        JMP     0
last    END     throw
