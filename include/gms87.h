/* The bench for the GMS87C1202 through one C function.
 *
 * Make the library with `rt lib` in crates/capi; it is crates/capi/out/libcapi.a and needs memcpy and memset only.
 */
#ifndef GMS87_H
#define GMS87_H

#include <stddef.h>
#include <stdint.h>

/* What a call answered. `number` is the fault's number, 0 for none; `pc` and `address` are 65536 where it names none. */
struct gms87_answer {
    uint64_t ticks;
    uint32_t number;
    uint32_t pc;
    uint32_t address;
};

#define GMS87_BAD_DESCRIPTION 100
#define GMS87_SMALL_BUFFER 101

/* Bytes of a record, and of the longest line. */
#define GMS87_RECORD 192
#define GMS87_LINE 64

/* Plays one experiment: powers a chip on and makes its calls, one after the other.
 *
 * Description, numbers with their low bytes first:
 *
 *      0  2048  image
 *   2048   128  RAM
 *   2176     2  wiring: 0 steady word, 1 pulses, 2 first wave, 3 pulses joined with the first wave,
 *               4 steady word, pulses and both waves joined
 *   2178     2  steady word
 *   2180     2  word of the pulses
 *   2182    10  first wave: word (2), low and high time (4 each)
 *   2192    10  second wave
 *   2202     2  places of the pin chart, at most 2048
 *   2204     2  places of the mode chart, at most 2048
 *   2206     2  how many pulses, at most 4096
 *   2208     2  how many calls
 *   2210        the pulses: offset and length (8 each)
 *               the calls: by ticks 0 or by leaps 1 (1), image without its last byte 1 or whole 0 (1), grant (8)
 *
 * `answers` takes one answer for each call, `fields` the record's 192 bytes, and `lines`, of at least 64 bytes for each
 * place of both charts, the P lines and the M lines of the counted stretches; `written` is how many bytes these have.
 *
 * The record: A, X, Y, SP, PC (2), PSW; RAM (128); latches of RA, RB, RC; RAIO, RBIO, RCIO, RAFUNC, RBFUNC, PUPSEL;
 * TM0, TDR0, T0, TM1, TDR1, T1; COMP; BUR, the buzzer's count and level; CKCTLR, BITR, WDTR, the watchdog's count;
 * IENH, IENL, IRQH, IRQL, IEDS; PFDR; the mode's letter; owed ticks; prescaler (2); tick number (8); counted pin
 * stretches (8); counted mode stretches (8).
 *
 * Answers 0; or an error, and then nothing is written: 13 for refused pulses, 14 for a refused wave, or one of the two above.
 */
uint32_t gms87_play(const uint8_t *description, size_t description_length,
                    struct gms87_answer *answers, size_t answers_length,
                    uint8_t *fields, size_t fields_length,
                    uint8_t *lines, size_t lines_length,
                    size_t *written);

#endif
