;redcode
;name Folder
;author The Core War kit
; A paper: eight processes copy the whole warrior, cell by cell, and the copies do the same elsewhere.

one     EQU     1800            ; the distances of the copies
two     EQU     3740
three   EQU     -1278

start   SPL     1               ; two processes,
        SPL     1               ; four,
        SPL     1               ; eight: one for each cell that is copied

fold    SPL     @fold, <one     ; starts the copy that the pointer leads to
        MOV.I   }fold, >fold
crease  SPL     @crease, <two
        MOV.I   }crease, >crease
        MOV.I   spare, <three   ; an occasional bomb
        MOV.I   {crease, <last
last    JMP     @last, >three
spare   DAT     <1, <1
        END     start
