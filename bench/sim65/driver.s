; Makes the calls that goat's `run` makes, on sim65, and prints the same lines by the stock library.
        .export _main
        .import _write, pushax

IMAGE   = $4000
PLAYS   = IMAGE + 6             ; how many calls of play there are
OUTPUT  = $D400
MOST    = 500                   ; calls that there is room for

        .data
line:   .byte "000000 "
hex:    .res 50
        .byte $0A
LENGTH  = * - line

        .bss
results:        .res 25 * MOST
zero_page:      .res 256
stack_page:     .res 256
stack_pointer:  .res 1
left:           .res 2

        .code
_main:  jsr make_calls
        jsr start_count
print:  ldx #0
        ldy #0
@byte:  lda results,y           ; the operand moves on by 25
        jsr put_hex
        iny
        cpy #25
        bne @byte
        clc
        lda @byte+1
        adc #25
        sta @byte+1
        bcc @put
        inc @byte+2
@put:   jsr write_line
        jsr next_number
        jsr count_down
        bne print
        lda #0
        tax
        rts

put_hex:
        pha
        lsr a
        lsr a
        lsr a
        lsr a
        jsr put_digit
        pla
        and #15
put_digit:
        cmp #10
        bcc @put
        adc #'a'-'0'-11         ; and the carry
@put:   adc #'0'
        sta hex,x
        inx
        rts

write_line:
        lda #1                  ; the standard output
        ldx #0
        jsr pushax
        lda #<line
        ldx #>line
        jsr pushax
        lda #LENGTH
        ldx #0
        jmp _write

next_number:
        ldx #5
@digit: inc line,x
        lda line,x
        cmp #'9'+1
        bne @end
        lda #'0'
        sta line,x
        dex
        bpl @digit
@end:   rts

; Counts the calls: init and the plays.
start_count:
        clc
        lda PLAYS
        adc #1
        sta left
        lda PLAYS+1
        adc #0
        sta left+1
        rts

; One call less. Z says that none is left.
count_down:
        lda left
        bne @low
        dec left+1
@low:   dec left
        lda left
        ora left+1
        rts

; Calls init and each play, with the stack pointer at $FF as goat's runner has it, and keeps the 25 bytes after each
; call. The library's zero page and stack are put back at the end.
make_calls:
        jsr start_count
        tsx
        stx stack_pointer
        ldx #0
@save:  lda $00,x
        sta zero_page,x
        lda $0100,x
        sta stack_page,x
        inx
        bne @save
        ldx #$FF
        txs
        lda #0
        jsr IMAGE
@keep:  ldx #24
@byte:  lda OUTPUT,x
@to:    sta results,x           ; the operand moves on by 25
        dex
        bpl @byte
        clc
        lda @to+1
        adc #25
        sta @to+1
        bcc @next
        inc @to+2
@next:  ldx #$FF
        txs
        jsr count_down
        beq @end
        jsr IMAGE+3
        jmp @keep
@end:   ldx #0
@back:  lda zero_page,x
        sta $00,x
        lda stack_page,x
        sta $0100,x
        inx
        bne @back
        ldx stack_pointer
        txs
        rts
