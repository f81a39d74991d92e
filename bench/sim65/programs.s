; Play k takes the k-th 16 bytes of a table. It multiplies the first two, divides the first by the second (or by 1 for
; 0), sorts the 16, and takes the CRC-16 of the sorted bytes (polynomial $1021, from 0). The 25 bytes are the product,
; the quotient, the remainder, the CRC with its high byte first, and the sorted bytes; the last three are 0.
        .include "entry.s"

data    = $10                   ; pointer to the 16 bytes
factor  = $12
product = $13
divisor = $15
crc     = $16
sorted  = OUTPUT + 6

init:   enter
        ldx #24
        lda #0
@clear: sta OUTPUT,x
        dex
        bpl @clear
        lda #<table
        sta data
        lda #>table
        sta data+1
        bne again

work:   jsr multiply
        jsr divide
        jsr copy
        jsr sort
        jsr check
        clc
        lda data
        adc #16
        sta data
        bcc again
        inc data+1
again:  lda #<work
        ldx #>work
        jmp leave

multiply:
        ldy #1
        lda (data),y
        sta factor
        dey
        sty product+1
        lda (data),y
        sta product
        ldx #8
        tya
@bit:   lsr product
        bcc @skip
        clc
        adc factor
@skip:  ror a
        ror product+1
        dex
        bne @bit
        sta OUTPUT+1
        lda product+1
        sta OUTPUT
        rts

divide: ldy #1
        lda (data),y
        bne @some
        lda #1
@some:  sta divisor
        dey
        lda (data),y
        sta product
        lda #0
        ldx #8
@bit:   asl product
        rol a
        bcs @take
        cmp divisor
        bcc @next
@take:  sbc divisor
        inc product
@next:  dex
        bne @bit
        sta OUTPUT+3
        lda product
        sta OUTPUT+2
        rts

copy:   ldy #15
@byte:  lda (data),y
        sta sorted,y
        dey
        bpl @byte
        rts

; By insertion: the bytes below Y are sorted.
sort:   ldy #1
@next:  tya
        tax
        lda sorted,y
@down:  cmp sorted-1,x
        bcs @put
        pha
        lda sorted-1,x
        sta sorted,x
        pla
        dex
        bne @down
@put:   sta sorted,x
        iny
        cpy #16
        bne @next
        rts

check:  lda #0
        sta crc
        sta crc+1
        tay
@byte:  lda sorted,y
        eor crc
        sta crc
        ldx #8
@bit:   asl crc+1
        rol crc
        bcc @next
        lda crc
        eor #$10
        sta crc
        lda crc+1
        eor #$21
        sta crc+1
@next:  dex
        bne @bit
        iny
        cpy #16
        bne @byte
        lda crc
        sta OUTPUT+4
        lda crc+1
        sta OUTPUT+5
        rts

table:  .incbin "table.bin"
PLAYS   = (* - table) / 16
