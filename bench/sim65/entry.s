; How both images are entered and left: init at $4000, play at $4003, the number of plays at $4006. The caller's return
; address is taken off the stack and put back, so that what the stack holds does not depend on the caller.
OUTPUT  = $D400

        .code
        jmp init
        jmp play
        .word PLAYS
vector: .word 0                 ; where the next play goes; neither of the two lies over a page's end
after:  .word 0                 ; where a case goes on
return: .word 0
caller: .byte 0

        .macro enter
        cld
        pla
        sta return
        pla
        sta return+1
        lda #$FF
        pha
        pha
        tsx
        stx caller
        .endmacro

play:   enter
        jmp (vector)

; Leaves a call. The next play goes to A (low) and X (high).
leave:  sta vector
        stx vector+1
        ldx caller
        txs
        pla
        pla
        lda return+1
        pha
        lda return
        pha
        rts
