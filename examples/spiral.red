;redcode
;name Whirl
;author The Core War kit
; A spiral of imps, launched by a vector: eight processes, each of which jumps to its own address.

points  EQU     7
step    EQU     ((CORESIZE + 1) / points)
;assert (CORESIZE + 1) % points == 0

launch  SPL     1               ; two processes,
        SPL     1               ; four,
        SPL     1               ; eight
        JMP     @vector, }0     ; each uses the next entry, since the A-number of this cell is incremented
vector                          ; the targets of the processes
i       FOR     8
        DAT     #0, imp + (i - 1) * step
        ROF
imp     MOV.I   #0, step
        END     launch
