; A dough prover: keeps a chamber warm and moist, and watches its door and its fan.
; Times are for an oscillator of 4 MHz, where a tick is 250 ns.
;
;   RA0  in   EC0: the fan's tacho, a few pulses a turn
;   RA1  in   thermostat, 1 = warm enough
;   RB0  out  fan
;   RB1  out  beeper, while BUZO gives the pin to the buzzer
;   RB2  in   INT0: door switch, 1 = open
;   RB4  out  heartbeat: COMP, by PWMO, turns at every match of Timer 0
;   RC0  out  heater
;   RC1  out  lamp
;
; A cold start lights the lamp and lets the watchdog reset the chip once, which shows that it can. Then Timer 0, at
; the divider 2048, wakes the chip for a step of control: 16 times every 20,480 ticks (5.12 ms) after a start or an
; opening of the door, and from then on every 204,800 ticks. Between steps it sleeps in STOP with WAKEUP 1, where only
; the prescaler and Timer 0 run. While the door is open all is off but the lamp, and the chip sleeps in STOP with
; WAKEUP 0, where everything stands still, until the door switch moves again.

; ---- RAM, cleared at a cold start; the stack grows down from 7F ----

MARK    = $00                   ; 5A A5 once the watchdog has been tried
RESETS  = $02                   ; resets by the watchdog
STEPS   = $03                   ; matches of Timer 0, modulo 256
DUE     = $04                   ; bit 0: a step of control is due
DOOR    = $05                   ; bit 2: the door is open
OPENED  = $06                   ; how often it was opened, modulo 256
HEATED  = $07                   ; 07 and 08: steps with the heater on
ALARMS  = $09                   ; how often the fan stood still
NEWEST  = $0A                   ; where in LOG the next count goes
BRISK   = $0B                   ; quick steps that are left
LOG     = $10                   ; 10 to 17: the last eight counts of the tacho
CLEARED = $20                   ; what is cleared ends here

; ---- values of registers ----

WATCH   = $10                   ; CKCTLR: WDTON, BTS 0 (BITR passes FF every 2,048 ticks), WAKEUP 0
NAPPING = $50                   ; CKCTLR: the same with WAKEUP 1
FEED    = $87                   ; WDTR: WDTCL, limit 7: a reset after 8 passings, 16,384 ticks awake
QUIET   = $14                   ; RBFUNC: PWMO and INT0I
LOUD    = $16                   ; RBFUNC: PWMO, INT0I and BUZO
WAKES   = $A0                   ; IENH: INT0E and T0E
STEPPED = $1B                   ; TM0: T0CK 6 (divider 2048), T0CN, T0ST, which clears the count
QUICK   = 9                     ; TDR0: a match at every 10th pulse
SLOW    = 99                    ; TDR0: a match at every 100th pulse

; ---- start ----

        .org $F800
START:  LDX #$7F
        TXSP                    ; the stack's first place
        LDM RC,#$00             ; latches stay over a reset: heater and lamp off
        LDM RB,#$00             ; fan off
        LDM RCIO,#$03           ; RC0 and RC1 are driven
        LDM RBIO,#$01           ; RB0 is driven
        LDM RAIO,#$00           ; RA is read
        LDA MARK
        CMP #$5A
        BNE COLD
        LDA MARK+1
        CMP #$A5
        BNE COLD
        JMP !WARM

; A cold start: clear RAM, leave the mark, and wait for the watchdog with the lamp on.
COLD:   LDX #MARK
        LDA #$00
CLEAR:  STA {X}+
        CMPX #CLEARED
        BNE CLEAR
        LDM MARK,#$5A
        LDM MARK+1,#$A5
        SET1 RC.1
        LDM CKCTLR,#$18         ; WDTON, BTCL, BTS 0
        LDM WDTR,#$83           ; WDTCL, limit 3: a reset after 4 passings, 8,192 ticks
STUCK:  BRA STUCK               ; not fed: the reset goes to START, and RAM stays

; After a reset by the watchdog.
WARM:   INC RESETS
        LDM CKCTLR,#WATCH
        LDM WDTR,#FEED
        LDM RBFUNC,#QUIET
        LDM IEDS,#$03           ; INT0 at both edges
        LDM BRISK,#16
        LDM TDR0,#QUICK
        LDM TM0,#STEPPED
        LDM IRQH,#$00
        LDA RB
        AND #$04
        STA DOOR                ; edges from here on are requests
        LDM IENH,#WAKES
        EI

; ---- the main loop: a step of control if one is due, then sleep ----

MAIN:   LDM WDTR,#FEED
        BBS DOOR.2,OPEN
        BBC DUE.0,NAP
        CLR1 DUE.0
        CALL !CONTROL

; With I clear, a request that comes before STOP stays pending and ends the sleep at once, so none is missed.
NAP:    DI
        BBS DUE.0,RISE
        BBS DOOR.2,RISE
        LDM CKCTLR,#NAPPING
        STOP                    ; mode W, until Timer 0 or the door
        NOP
        LDM CKCTLR,#WATCH
RISE:   EI                      ; what ended the sleep is accepted after this
        BRA MAIN

; The door is open: all off but the lamp, and sleep until it is closed.
OPEN:   CLR1 RC.0
        LDM RB,#$00
        SET1 RC.1
        LDM IENH,#$80           ; INT0E: the door alone ends this sleep
WAIT:   DI
        BBC DOOR.2,SHUT
        STOP                    ; mode S, since WAKEUP is 0
        NOP
        EI
        NOP                     ; INT0 is accepted here
        BRA WAIT
SHUT:   CLR1 RC.1
        LDA BRISK
        BNE READY               ; the steps are quick already
        LDM TDR0,#QUICK
        LDM TM0,#STEPPED
READY:  LDM BRISK,#16
        LDM IENH,#WAKES
        EI
        PCALL BEEP
        BRA MAIN

; ---- one step of control ----

CONTROL:LDA STEPS               ; a phase lasts two steps
        LSR A
        AND #$07
        TAY
        LDA !PHASES+Y
        BBC RA.1,CHOSEN
        AND #$02                ; warm enough: no heat
CHOSEN: BBS A.0,HEAT
        CLR1 RC.0
        BRA AIR
HEAT:   SET1 RC.0
        PUSH A
        CLRC
        LDA HEATED
        ADC #1
        STA HEATED
        LDA HEATED+1
        ADC #0
        STA HEATED+1
        POP A
AIR:    LSR A
        STA RB                  ; bit 1 of the phase is the fan, RB0
        LDA STEPS
        AND #$1F
        CMP #6
        BNE TEMPO
        CALL !SPIN              ; once in 32 steps, with the fan on
TEMPO:  LDA BRISK
        BEQ EASE
        DEC BRISK
        RET
EASE:   LDM TDR0,#SLOW          ; above the count, so that its match is not missed
        RET

; What is on in the eight phases: bit 0 the heater, bit 1 the fan.
PHASES: .byte $01, $01, $03, $03, $02, $02, $00, $00

; Counts the tacho for 8,000 ticks with Timer 0, logs the count, and sounds the alarm below 2.
SPIN:   CLR1 IENH.5             ; T0E: no steps meanwhile
        LDM TDR0,#$FF
        LDM TM0,#$1F            ; T0CK 7 (EC0), T0CN, T0ST
        LDY #4
        TCALL 1
        LDA T0
        LDM TDR0,#QUICK
        LDM TM0,#STEPPED        ; steps again
        CLR1 IRQH.5             ; T0IF
        SET1 IENH.5
        LDX NEWEST
        STA LOG+X
        INC X
        CMPX #8
        BNE PLACED
        LDX #0
PLACED: STX NEWEST
        CMP #2
        BCS TURNS
        INC ALARMS
        LDX #3
RING:   PCALL BEEP
        LDY #1
        TCALL 1
        DEC X
        BNE RING
TURNS:  RET

; TCALL 1: waits for Y matches of Timer 1, 2,000 ticks each, and feeds the watchdog meanwhile.
PAUSE:  LDM TDR1,#249
        LDM TM1,#$0B            ; T1CK 2 (divider 8), T1CN, T1ST
NEXT:   CLR1 IRQH.4             ; T1IF
AGAIN:  LDM WDTR,#FEED
        BBC IRQH.4,AGAIN
        DBNE Y,NEXT
        LDM TM1,#$00
        RET

; ---- interrupts ----

; Timer 0: a step is due.
STEP:   INC STEPS
        SET1 DUE.0
        RETI

; INT0: the door switch moved.
MOVED:  PUSH A
        LDA RB
        AND #$04
        STA DOOR
        BEQ CLOSED
        INC OPENED
CLOSED: POP A
IGNORE: RETI

; ---- the page of PCALL ----

        .org $FF00
; A beep of 4,000 ticks: the level turns every 512 ticks (3.9 kHz).
BEEP:   LDM BUR,#$5F            ; BUCK 1 (divider 16), limit 1F
        LDM RBFUNC,#LOUD
        LDY #2
        TCALL 1
        LDM RBFUNC,#QUIET
        RET

; ---- vectors ----

        .org $FFDC
        .word PAUSE             ; TCALL 1
        .word IGNORE            ; BRK
        .org $FFE6
        .word IGNORE, IGNORE, IGNORE            ; BIT, WDT, A/D
        .org $FFF4
        .word IGNORE, STEP, IGNORE, MOVED       ; T1, T0, INT1, INT0
        .org $FFFE
        .word START             ; reset
