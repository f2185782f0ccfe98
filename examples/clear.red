;redcode
;name Broom
;author The Core War kit
; A core clear: overwrites the whole core with empty cells, up to itself.

sweep   MOV     dust, >front
        JMP     sweep
dust    DAT     0, 0
front   DAT     0, 2
        END     sweep
