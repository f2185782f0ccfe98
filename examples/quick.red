;redcode
;name Glance
;author The Core War kit
; A quickscanner: compares 48 cells all over the core in 24 pairs, and attacks at once if the two cells of a pair differ.
; After that, or if it finds nothing, it is a stone. It finds long warriors more often than short ones.
; Shows FOR, and `&`, which joins the counter to a label: found01, found02, and so on.
;assert CORESIZE == 8000 && MAXLENGTH >= 100

pairs   EQU     24
gap     EQU     160             ; between the two cells of a pair
hop     EQU     (2 * gap)       ; from one pair to the next

start
i       FOR     pairs           ; the most distant pair first
        SEQ     aim + (pairs + 1 - i) * hop, aim + (pairs + 1 - i) * hop + gap
        JMP     found&i
        ROF
        JMP     throw

; Each line adds one hop and continues with the next one: found01 adds 24 hops, found24 only one.
i       FOR     pairs
found&i ADD.F   by, aim
        ROF

strike  MOV     bomb, *aim      ; at the second cell of the pair
        MOV     bomb, @aim      ; at the first
        ADD.F   pace, aim
        DJN     strike, #12

throw   MOV     bomb, @away     ; the stone
        ADD     #step, away
        JMP     throw
step    EQU     3044
away    DAT     #0, #step
pace    DAT     #2, #2          ; every second cell around the pair
by      DAT     #hop, #hop
bomb    DAT     <2, <4
aim     DAT     #gap - 8, #-8   ; eight cells before each cell of the pair
        END     start
