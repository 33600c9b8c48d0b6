; A self-checking image of a few instructions. It ends as it should, or as -D LOST, UNDEFINED or ENDLESS has it.
        .import success

        .segment "STARTUP"
        ldx     #3
again:  dex
        bne     again
.if .defined(LOST)
        sec
        bcs     *
.elseif .defined(UNDEFINED)
        .byte   $02
.elseif .defined(ENDLESS)
        beq     again
.endif
        jmp     success
