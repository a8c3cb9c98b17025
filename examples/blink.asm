; The smallest example: the buzzer on RB1.
; BUZO of RBFUNC gives RB1 to the buzzer. BUR 0 has the divider 8 and the limit 0, so the level turns every 8 ticks.
        .org $F800
START:  LDM RBFUNC,#$02         ; BUZO
        LDM BUR,#$00            ; BUCK 0, limit 0
SELF:   BRA SELF

        .org $FFFE
        .word START             ; reset
