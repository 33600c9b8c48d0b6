; What runs before main and after it.
        .export __STARTUP__ : absolute = 1
        .import _main, copydata, zerobss, success, failure
        .import __RAM_START__, __RAM_SIZE__
        .importzp sp

        .segment "STARTUP"
        ldx     #$FF
        txs
        cld
        lda     #<(__RAM_START__ + __RAM_SIZE__)
        sta     sp
        lda     #>(__RAM_START__ + __RAM_SIZE__)
        sta     sp+1
        jsr     copydata
        jsr     zerobss
        jsr     _main           ; how many results are wrong, in A
        cmp     #0
        bne     wrong
        jmp     success
wrong:  jmp     failure
