; The firmware of the example's blade. It switches eight outlets on, one every 5,000 cycles, adds their loads up without
; a pause, and sheds an outlet when the board asks for it.
;
; Map and code are one text. In front of each instruction stand its kind, height and need (docs/ADMISSION.md):
;     main H, N, ..    is run after a reset     H: bytes that the instruction finds on the stack
;     routine H, N, .. is called by JSR         N: bytes that may yet be pushed on top, from there on
;     handler H, N, .. is run by an interrupt
; The assembler writes the instruction into the ROM and its record into the map. They may still be wrong together: that
; is what wankitare_admit is for.
;
; The number behind an instruction is its cycles.

.macro  mapped kind, height, need, operation, index
        .local here
here:
        .pushseg
        .segment "MAP"
        .word here                      ; the address, low, high
        .byte kind, height, need, 0, 0, 0
        .popseg
        .ifblank index
        operation
        .else
        operation, index                ; the comma of LOADS,x
        .endif
.endmacro

.macro  main height, need, operation, index
        mapped 1, height, need, operation, index
.endmacro

.macro  routine height, need, operation, index
        mapped 2, height, need, operation, index
.endmacro

.macro  handler height, need, operation, index
        mapped 3, height, need, operation, index
.endmacro

; Cells. The board reads and fills them between two steps.
OUTLETS = $0200                         ; bit n: outlet n is on
STAGE   = $0201                         ; how many outlets were switched on
SHED    = $0202                         ; filled by the board before it asks: the bit of the outlet to switch off
SERVED  = $0203                         ; how often that was done
LOADS   = $0210                         ; 8 cells, filled by the board: the load of each outlet, two decimal digits
SUM     = $0220                         ; their sum, low and high: four decimal digits

; Cells of the firmware alone.
NEXT    = $0204                         ; the bit of the outlet that comes on next
PARTIAL = $0205                         ; a sum in the making, low and high

        .segment "CODE"

; After a reset. Interrupts are masked until CLI.
reset:
        main 0, 2, cld                  ; a reset leaves the decimal flag as it was
        main 0, 2, ldx #$FF
        main 0, 2, txs
        main 0, 2, lda #0
        main 0, 2, sta OUTLETS
        main 0, 2, sta STAGE
        main 0, 2, sta SERVED
        main 0, 2, lda #1
        main 0, 2, sta NEXT
        main 0, 2, cli

; One outlet after the other. From one to the next: 18 times 276 cycles less one, and 33. That is 5,000, and what
; interrupts take.
outlet:
        main 0, 2, ldy #18              ; 2
wait:
        main 0, 2, jsr add_up           ; 6, and 265 in the routine
        main 0, 2, dey                  ; 2
        main 0, 2, bne wait             ; 3; 2 when it falls through

        main 0, 2, sei                  ; 2  the handler writes OUTLETS too: not between our read and our write
        main 0, 2, lda OUTLETS          ; 4
        main 0, 2, ora NEXT             ; 4
        main 0, 2, sta OUTLETS          ; 4  the outlet is on
        main 0, 2, cli                  ; 2
        main 0, 2, inc STAGE            ; 6
        main 0, 2, asl NEXT             ; 6  behind outlet 7 the bit falls into the carry
        main 0, 2, bcc outlet           ; 3

idle:
        main 0, 2, jsr add_up
        main 0, 2, jmp idle

; Adds the eight loads up. It always takes 265 cycles, whatever they are: no branch hangs on them.
add_up:
        routine 0, 0, lda #0            ; 2
        routine 0, 0, sta PARTIAL       ; 4
        routine 0, 0, sta PARTIAL+1     ; 4
        routine 0, 0, ldx #7            ; 2
        routine 0, 0, sed               ; 2  from here on ADC adds decimal digits
add_one:                                ;    8 times 29, less one
        routine 0, 0, clc               ; 2
        routine 0, 0, lda PARTIAL       ; 4
        routine 0, 0, adc LOADS,x       ; 4
        routine 0, 0, sta PARTIAL       ; 4
        routine 0, 0, lda PARTIAL+1     ; 4
        routine 0, 0, adc #0            ; 2  the carry
        routine 0, 0, sta PARTIAL+1     ; 4
        routine 0, 0, dex               ; 2
        routine 0, 0, bpl add_one       ; 3; 2 when it falls through
        routine 0, 0, cld               ; 2
        routine 0, 0, sta SUM+1         ; 4  A has the high digits still
        routine 0, 0, lda PARTIAL       ; 4
        routine 0, 0, sta SUM           ; 4  the low ones last: with them the sum is whole
        routine 0, 0, rts               ; 6

; The board asks for an outlet to be switched off. 40 cycles, with 7 to get here.
; An interrupt may find the decimal flag set, in the midst of add_up. This handler does no sum; one that does begins
; with CLD. RTI brings back all flags, so neither has to restore any.
asked:
        handler 0, 1, pha               ; 3  A is needed here, and is given back
        handler 1, 0, lda SHED          ; 4
        handler 1, 0, eor #$FF          ; 2
        handler 1, 0, and OUTLETS       ; 4
        handler 1, 0, sta OUTLETS       ; 4  the outlet is off
        handler 1, 0, inc SERVED        ; 6  the board sees it and no longer asks
        handler 1, 0, pla               ; 4
        handler 0, 0, rti               ; 6

        .segment "VECTORS"
        .word asked                     ; FFFA: NMI, which this board never asserts
        .word reset                     ; FFFC
        .word asked                     ; FFFE
