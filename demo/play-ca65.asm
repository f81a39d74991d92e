; Plays lantern.raw once a picture from a raster interrupt, while BASIC goes on. In this folder:
;     cl65 -t none -o play.prg play-ca65.asm

init    = $1000         ; the address that lantern.raw was packed for
play    = init + 3
subtune = 0             ; counted from 0
line    = 100           ; the raster line of the interrupt

        .word $0801     ; where it is loaded
        .org $0801
        .byte $0B, $08, 10, 0, $9E, "2061", 0, 0, 0 ; 10 SYS 2061

start:  sei
        lda #$7F        ; no interrupts by the timers, and none of theirs that waits
        sta $DC0D
        sta $DD0D
        lda $DC0D
        lda $DD0D
        lda #subtune
        jsr init
        lda #<frame     ; the kernal jumps here, with A, X and Y kept
        sta $0314
        lda #>frame
        sta $0315
        lda #line
        sta $D012
        lda $D011       ; the line's ninth bit is 0
        and #$7F
        sta $D011
        lda #1          ; interrupts by the raster, and none that waits
        sta $D01A
        sta $D019
        cli
        rts

frame:  inc $D020       ; the border shows how long the call takes
        jsr play
        dec $D020
        lda #1          ; acknowledged
        sta $D019
        jmp $EA31       ; the kernal's own work: keys, cursor, clock; it ends the interrupt

        .res init - *
        .incbin "lantern.raw", 2 ; without the address in front
