;redcode
;name Gate
;author The Core War kit
; Waits at a gate: decrements the B-number of the cell before it, which destroys imps that arrive there.
wait    JMP     wait, <wait-1
