//! The program that the benchmark runs: a loop of what controllers do, without end. Its variables lie at
//! 10 to 2F and its stack stays near 01FF, so that it works where pages 0 and 1 are one (6508).

pub const START: u16 = 0xE000;

#[rustfmt::skip]
pub const PROGRAM: &[u8] = &[
    0xD8,              // E000 start:    CLD
    0xA2, 0xFF,        // E001           LDX #FF
    0x9A,              // E003           TXS
    0xA2, 0x07,        // E004           LDX #07
    0xBD, 0xEF, 0xE0,  // E006 init:     LDA constant,X  ; two pointers and a decimal addend
    0x95, 0x10,        // E009           STA 10,X
    0xCA,              // E00B           DEX
    0x10, 0xF8,        // E00C           BPL init
    0x20, 0x26, 0xE0,  // E00E main:     JSR copy
    0x20, 0x36, 0xE0,  // E011           JSR sort
    0x20, 0x64, 0xE0,  // E014           JSR add
    0x20, 0x7D, 0xE0,  // E017           JSR multiply
    0x20, 0x99, 0xE0,  // E01A           JSR decimal
    0x20, 0xAB, 0xE0,  // E01D           JSR sieve
    0x20, 0xD2, 0xE0,  // E020           JSR digits
    0x6C, 0xED, 0xE0,  // E023           JMP (again)
    0xA0, 0x3F,        // E026 copy:     LDY #3F         ; 64 bytes from 0300 to 0600
    0xB1, 0x10,        // E028 copied:   LDA (10),Y
    0x91, 0x12,        // E02A           STA (12),Y
    0x88,              // E02C           DEY
    0x10, 0xF9,        // E02D           BPL copied
    0xEE, 0x00, 0x03,  // E02F           INC 0300
    0xEE, 0x10, 0x03,  // E032           INC 0310
    0x60,              // E035           RTS
    0xA2, 0x0F,        // E036 sort:     LDX #0F         ; bubble sort of 16 bytes
    0xBD, 0xF7, 0xE0,  // E038 fill:     LDA unsorted,X
    0x45, 0x20,        // E03B           EOR 20
    0x9D, 0x00, 0x05,  // E03D           STA 0500,X
    0xCA,              // E040           DEX
    0x10, 0xF5,        // E041           BPL fill
    0xA0, 0x00,        // E043 pass:     LDY #00         ; exchanges
    0xA2, 0x0E,        // E045           LDX #0E
    0xBD, 0x00, 0x05,  // E047 pair:     LDA 0500,X
    0xDD, 0x01, 0x05,  // E04A           CMP 0501,X
    0x90, 0x0E,        // E04D           BCC ordered
    0xF0, 0x0C,        // E04F           BEQ ordered
    0x48,              // E051           PHA
    0xBD, 0x01, 0x05,  // E052           LDA 0501,X
    0x9D, 0x00, 0x05,  // E055           STA 0500,X
    0x68,              // E058           PLA
    0x9D, 0x01, 0x05,  // E059           STA 0501,X
    0xC8,              // E05C           INY
    0xCA,              // E05D ordered:  DEX
    0x10, 0xE7,        // E05E           BPL pair
    0x98,              // E060           TYA
    0xD0, 0xE0,        // E061           BNE pass
    0x60,              // E063           RTS
    0xA0, 0x10,        // E064 add:      LDY #10         ; 16-bit sums
    0x18,              // E066 sum:      CLC
    0xA5, 0x20,        // E067           LDA 20
    0x65, 0x22,        // E069           ADC 22
    0x85, 0x20,        // E06B           STA 20
    0xA5, 0x21,        // E06D           LDA 21
    0x65, 0x23,        // E06F           ADC 23
    0x85, 0x21,        // E071           STA 21
    0xE6, 0x22,        // E073           INC 22
    0xD0, 0x02,        // E075           BNE summed
    0xE6, 0x23,        // E077           INC 23
    0x88,              // E079 summed:   DEY
    0xD0, 0xEA,        // E07A           BNE sum
    0x60,              // E07C           RTS
    0xA5, 0x20,        // E07D multiply: LDA 20          ; 8 by 8 bits, shift and add
    0x85, 0x24,        // E07F           STA 24
    0xA5, 0x21,        // E081           LDA 21
    0x85, 0x25,        // E083           STA 25
    0xA9, 0x00,        // E085           LDA #00
    0xA2, 0x08,        // E087           LDX #08
    0x46, 0x24,        // E089           LSR 24
    0x90, 0x03,        // E08B bit:      BCC shift
    0x18,              // E08D           CLC
    0x65, 0x25,        // E08E           ADC 25
    0x6A,              // E090 shift:    ROR A
    0x66, 0x24,        // E091           ROR 24
    0xCA,              // E093           DEX
    0xD0, 0xF5,        // E094           BNE bit
    0x85, 0x26,        // E096           STA 26
    0x60,              // E098           RTS
    0xF8,              // E099 decimal:  SED             ; eight digits at 28 and the addend at 14
    0x18,              // E09A           CLC
    0xA2, 0x00,        // E09B           LDX #00
    0xA0, 0x04,        // E09D           LDY #04
    0xB5, 0x28,        // E09F digit:    LDA 28,X
    0x75, 0x14,        // E0A1           ADC 14,X
    0x95, 0x28,        // E0A3           STA 28,X
    0xE8,              // E0A5           INX
    0x88,              // E0A6           DEY
    0xD0, 0xF6,        // E0A7           BNE digit
    0xD8,              // E0A9           CLD
    0x60,              // E0AA           RTS
    0xA2, 0x7F,        // E0AB sieve:    LDX #7F         ; primes below 128
    0xA9, 0x01,        // E0AD           LDA #01
    0x9D, 0x00, 0x07,  // E0AF set:      STA 0700,X
    0xCA,              // E0B2           DEX
    0x10, 0xFA,        // E0B3           BPL set
    0xA2, 0x02,        // E0B5           LDX #02
    0xBD, 0x00, 0x07,  // E0B7 next:     LDA 0700,X
    0xF0, 0x10,        // E0BA           BEQ marked
    0x86, 0x2C,        // E0BC           STX 2C
    0x8A,              // E0BE           TXA
    0x0A,              // E0BF           ASL A
    0xA8,              // E0C0 mark:     TAY
    0xA9, 0x00,        // E0C1           LDA #00
    0x99, 0x00, 0x07,  // E0C3           STA 0700,Y
    0x98,              // E0C6           TYA
    0x18,              // E0C7           CLC
    0x65, 0x2C,        // E0C8           ADC 2C
    0x10, 0xF4,        // E0CA           BPL mark
    0xE8,              // E0CC marked:   INX
    0xE0, 0x0C,        // E0CD           CPX #0C
    0xD0, 0xE6,        // E0CF           BNE next
    0x60,              // E0D1           RTS
    0xA2, 0x1F,        // E0D2 digits:   LDX #1F         ; a checksum by table
    0xA9, 0x00,        // E0D4           LDA #00
    0x5D, 0x00, 0x06,  // E0D6 fold:     EOR 0600,X
    0x08,              // E0D9           PHP
    0x29, 0x0F,        // E0DA           AND #0F
    0xA8,              // E0DC           TAY
    0xB9, 0x07, 0xE1,  // E0DD           LDA table,Y
    0x28,              // E0E0           PLP
    0x30, 0x02,        // E0E1           BMI folded
    0xC6, 0x2D,        // E0E3           DEC 2D
    0xCA,              // E0E5 folded:   DEX
    0x10, 0xEE,        // E0E6           BPL fold
    0x85, 0x2E,        // E0E8           STA 2E
    0xE6, 0x2F,        // E0EA           INC 2F
    0x60,              // E0EC           RTS
    0x0E, 0xE0,        // E0ED again:    .word main
    0x00, 0x03, 0x00, 0x06, 0x01, 0x25, 0x00, 0x00, // E0EF constant:
    0x9C, 0x13, 0xE7, 0x02, 0x58, 0xB4, 0x31, 0xFF, // E0F7 unsorted:
    0x6A, 0x07, 0xC8, 0x40, 0x8D, 0x75, 0x2E, 0xA9, // E0FF
    0x1B, 0xC4, 0x57, 0x8E, 0x23, 0xF0, 0x69, 0xA5, // E107 table:
    0x3C, 0xD2, 0x04, 0x7F, 0x96, 0xE1, 0x48, 0xBA, // E10F
];
