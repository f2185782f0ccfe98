;redcode
;name Stranger
;author The Core War kit
; Boots: copies its six working cells far away, jumps there, and leaves the original as a decoy for scanners to bomb. The
; copy is a stone that throws two bombs in each iteration of its loop.
; Shows FOR without a counter, which repeats a line.
;assert CORESIZE == 8000

far     EQU     3941
step    EQU     3048            ; a multiple of eight, as is the core: each bomb has 1000 targets, none of its own cells

        FOR     6               ; last cell first: decrements both pointers and copies the cell
        MOV     <from, <to
        ROF
        JMP     @to             ; jumps to the first cell of the copy

from    DAT     0, last - from
to      DAT     0, far + 6

        FOR     20              ; more for scanners to find
        DAT     1, 1
        ROF

stone   MOV     bomb, *aim
        MOV     bomb, @aim
        ADD.F   bomb, aim       ; the bomb is also the step to the next targets
        JMP     stone
aim     DAT     #4002, #3
bomb    DAT     #step, #step
last    END                     ; a label on the line of END is the address after the last cell
