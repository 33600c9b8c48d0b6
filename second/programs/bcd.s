; Sums and differences in the processor's decimal mode, of numbers of 32 digits: 16 bytes, the lowest first.
        .export _add, _subtract
        .import popax
        .importzp ptr1, ptr2

; The last argument comes in A and X, the first on the C stack.
        .macro  digits carry, operation
        .local  next
        sta     ptr2
        stx     ptr2+1
        jsr     popax
        sta     ptr1
        stx     ptr1+1
        sed
        carry
        ldy     #0
        ldx     #16
next:   lda     (ptr1),y
        operation (ptr2),y
        sta     (ptr1),y
        iny
        dex
        bne     next
        cld
        rts
        .endmacro

        .code
; void add(unsigned char *to, const unsigned char *term)
_add:   digits  clc, adc

; void subtract(unsigned char *from, const unsigned char *term)
_subtract:
        digits  sec, sbc
