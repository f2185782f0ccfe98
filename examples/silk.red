;redcode
;name Silk
;author The Core War kit
; A paper that splits to its copies before they exist: each copy is written just before its processes execute it.
; Shows an EQU of several lines: `weave two` is the line MOV and then `SPL @0, two`, since the text after the name is
; added to the last line.
;assert MAXPROCESSES >= 8

one     EQU     3620
two     EQU     -1270
three   EQU     2404

eight   EQU     SPL     1       ; one process becomes two,
        EQU     SPL     1       ; four,
        EQU     SPL     1       ; eight: one for each cell of the paper
weave   EQU     MOV.I   }-1, >-1
        EQU     SPL     @0,

start   eight
paper   SPL     @0, one
        weave   two
        weave   three
        MOV.I   }-1, >-1
        MOV.I   bomb, <-400
bomb    DAT     <2667, <5334
        END     start
