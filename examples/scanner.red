;redcode
;name Lookout
;author The Core War kit
; A scanner: compares pairs of cells while they are equal, and throws bombs at both cells if they differ.

gap     EQU     7               ; between the two cells
hop     EQU     (2 * gap)       ; from one pair to the next
size    EQU     (last - scan)

scan    ADD     by, look
look    SEQ     scan + hop, scan + hop + gap
        SLT     #size + gap + 2, look   ; are both outside its own cells?
        JMP     scan
        MOV     bomb, *look
        MOV     bomb, @look
        JMP     scan
by      DAT     #hop, #hop
bomb    DAT     <1, <2
last    DAT     0, 0
        END     look
