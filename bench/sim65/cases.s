; Cases of one instruction each. A case leaves in the 25 bytes: A, X, Y, the flags as PHP pushes them, the stack
; pointer, the address behind the landing that it came to, and six bytes of memory. Behind them stand the sums of the
; last sweep, two each of page 0, of the stack and of page $3F.
        .include "entry.s"

WORK    = $3F00
SUMS    = OUTPUT + 13

        .macro fill page, bytes
        .local loop
        ldx #0
loop:   lda bytes,x
        sta page,x
        inx
        bne loop
        .endmacro

init:   enter
        fill $0000, pages
        fill $0100, pages+$100
        fill WORK, pages+$200
        ldx #24
        lda #0
@clear: sta OUTPUT,x
        dex
        bpl @clear
        lda #<case0
        ldx #>case0
        jmp leave

; Where a case lands, by JSR: keeps the registers, and goes on behind the JSR. What lies above the stack pointer stays.
capture:
        sta OUTPUT
        stx OUTPUT+1
        sty OUTPUT+2
        php
        pla
        sta OUTPUT+3
        cld
        pla
        sta after
        sta OUTPUT+5
        pla
        sta after+1
        sta OUTPUT+6
        tsx
        stx OUTPUT+4
        inc after
        bne @on
        inc after+1
@on:    jmp (after)

        .macro sums page, place
        .local add, turn
        ldx #0
        clc
        txa
add:    rol a
        adc page,x
        inx
        bne add
        sta place
        txa
turn:   ror a
        eor page,x
        inx
        bne turn
        sta place+1
        .endmacro

sweep:  sums $0000, SUMS
        sums $0100, SUMS+2
        sums WORK, SUMS+4
        rts

pages:  .incbin "pages.bin"
        .include "list.s"
