/* SPDX-License-Identifier: MIT
 *
 * phkarotuk.h: the proved SM83 core for C (C99) and C++.
 *
 * Link libphkarotuk.a or libphkarotuk.so, which `lib/build [--shared] FOLDER` writes (docs/EMBEDDING.md). Every function works
 * on blocks that the caller lends; it allocates nothing, keeps nothing between two calls and calls nothing (the screen: memset).
 * Each answers the number of the document (docs/01-scope.md), or PHK_MALFORMED if a block has the wrong length, a flag is
 * neither 0 nor 1, the halt mode is above 3, or the model is unknown; then no byte of any block is changed.
 *
 * Names: PHK_AT_ is an offset in a block, PHK_SIZE_ a length, PHK_MODEL_ what phk_power_on takes, PHK_OUTCOME_ what phk_run and
 * phk_step answer, PHK_REFUSAL_ what phk_screen answers. Each family is an enum of its own: in a
 * switch ((enum phk_outcome)phk_step(...)) GCC and Clang warn (-Wall) of a case that is no outcome, and of one left out.
 *
 * What is proved stands in crates/library/specs: the number and every byte of every block, for every input. What is not proved:
 * the inline functions below. What is trusted: the compiler's back end, and that the pointers and lengths handed over are true
 * and do not overlap. A pointer may not be null, not even with length 0.
 */
#ifndef PHKAROTUK_H
#define PHKAROTUK_H

#include <stddef.h>
#include <stdint.h>

#ifdef __cplusplus
extern "C" {
#endif

/* Of which library and which document this header is: 1.0.0 as major, minor and patch, a byte each; and the first eight
 * hexadecimal digits of the SHA-256 of docs/01-scope.md. A host compares phk_version() with PHK_VERSION. */
#define PHK_VERSION_LIBRARY 0x00010000u
#define PHK_VERSION_DOCUMENT 0x031bd0dau
#define PHK_VERSION ((uint64_t)PHK_VERSION_LIBRARY << 32 | PHK_VERSION_DOCUMENT)

/* Lengths, in bytes. */
enum phk_size {
    PHK_SIZE_STATE = 24,
    PHK_SIZE_ANSWER = 24,        /* of a step or a run */
    PHK_SIZE_SCREEN = 4,         /* of the screen */
    PHK_SIZE_WINDOW = 4096,      /* the longest window, and so the most marks */
    PHK_SIZE_MEMORY = 65536
};

/* Offsets in a block. Words stand low byte first: phk_get16, phk_put16, phk_get32. */
enum phk_at {
    /* the state block */
    PHK_AT_A = 0, PHK_AT_F = 1, PHK_AT_B = 2, PHK_AT_C = 3, PHK_AT_D = 4, PHK_AT_E = 5, PHK_AT_H = 6, PHK_AT_L = 7,
    PHK_AT_SP = 8,               /* 2 bytes */
    PHK_AT_PC = 10,              /* 2 bytes */
    PHK_AT_IME = 12,             /* 0 or 1 */
    PHK_AT_EI_LATCH = 13,        /* 0 or 1 */
    PHK_AT_HALT = 14,            /* enum phk_halt */
    PHK_AT_STOPPED = 15,         /* 0 or 1; STOP sets it, the host clears it */
    PHK_AT_HDMA = 16,            /* 0 or 1; the host's */
    PHK_AT_DMG = 17,             /* 1 on a DMG, 0 on a CGB */
    PHK_AT_RESERVED = 18,        /* 6 bytes: phk_power_on clears them, nothing else looks at or changes them */
    /* the answer block of a step or a run */
    PHK_AT_ANSWER_OUTCOME = 0,   /* 2 bytes: the number that the call answers, too */
    PHK_AT_ANSWER_STEPS = 2,     /* 2 bytes */
    PHK_AT_ANSWER_M_CYCLES = 4,  /* 4 bytes */
    PHK_AT_ANSWER_SHOWN = 8,     /* 12 bytes: the registers at a breakpoint, as bytes 0 to 11 of a state block; else 0 */
    /* the answer block of the screen */
    PHK_AT_SCREEN_REFUSAL = 0,   /* the number that the call answers, too */
    PHK_AT_SCREEN_NAMED = 1,     /* 1 if an address is named */
    PHK_AT_SCREEN_ADDRESS = 2    /* 2 bytes */
};

/* The flags of F; its other four bits are 0, or a step and a run are refused. */
enum phk_flag { PHK_FLAG_Z = 0x80, PHK_FLAG_N = 0x40, PHK_FLAG_H = 0x20, PHK_FLAG_C = 0x10 };

/* Halt modes: awake, halted with interrupts on, halted with interrupts off, halt bug. */
enum phk_halt { PHK_HALT_AWAKE = 0, PHK_HALT_RUN_INTERRUPT = 1, PHK_HALT_NO_RUN_INTERRUPT = 2, PHK_HALT_BUG = 3 };

/* Models at power-on. */
enum phk_model {
    PHK_MODEL_DMG = 0,
    PHK_MODEL_CGB = 1,           /* with a CGB cartridge */
    PHK_MODEL_CGB_DMG = 2,       /* with a DMG cartridge */
    PHK_MODEL_ZERO = 3           /* without a boot skip, every register 0: a DMG. A CGB without one: 24 bytes 0 */
};

/* What a step or a run answers. */
enum phk_outcome {
    PHK_OUTCOME_NORMAL = 0,
    PHK_OUTCOME_INFINITE_LOOP = 1,
    PHK_OUTCOME_HALTING = 2,
    PHK_OUTCOME_RUNNING_HDMA = 3,
    PHK_OUTCOME_STOPPED = 4,
    PHK_OUTCOME_BREAKPOINT = 5,
    PHK_OUTCOME_NOTHING_RUN = 6, /* budget 0 */
    PHK_OUTCOME_INTERRUPT_VBLANK = 8,
    PHK_OUTCOME_INTERRUPT_LCD_STAT = 9,
    PHK_OUTCOME_INTERRUPT_TIMER = 10,
    PHK_OUTCOME_INTERRUPT_SERIAL = 11,
    PHK_OUTCOME_INTERRUPT_JOYPAD = 12,
    /* 16 + the document's number; every outcome from 17 on is a refusal, or PHK_MALFORMED */
    PHK_OUTCOME_REFUSED_MEMORY_LENGTH = 17,
    PHK_OUTCOME_REFUSED_LOW_BITS_OF_F = 18,
    PHK_OUTCOME_REFUSED_ILLEGAL_OPCODE = 19
};

/* The document's refusals, "When the core says no": what the screen answers, and phk_refusal of an outcome. */
enum phk_refusal {
    PHK_REFUSAL_NONE = 0,        /* the routine passes */
    PHK_REFUSAL_MEMORY_LENGTH = 1,
    PHK_REFUSAL_LOW_BITS_OF_F = 2,
    PHK_REFUSAL_ILLEGAL_OPCODE = 3,
    PHK_REFUSAL_WINDOW_REVERSED = 4,
    PHK_REFUSAL_WINDOW_TOO_LONG = 5,
    PHK_REFUSAL_MARKS_LENGTH = 6,
    PHK_REFUSAL_FORBIDDEN_OPCODE = 7,
    PHK_REFUSAL_PAST_THE_END = 8,
    PHK_REFUSAL_FALLS_THROUGH = 9,
    PHK_REFUSAL_JUMP_UNMARKED = 10
};

/* What any call answers to a block that is none, or to an unknown model. */
#define PHK_MALFORMED 255

/* The archive's PHK_VERSION. */
uint64_t phk_version(void);

/* Writes the whole state block, the reserved bytes too; 0 or PHK_MALFORMED. `model` is an enum phk_model. */
uint16_t phk_power_on(uint8_t *state, size_t state_size, uint16_t model);

/* Up to `budget` steps. `mem` is 65,536 bytes, or the run is refused. Answers an enum phk_outcome or PHK_MALFORMED. */
uint16_t phk_run(uint8_t *state, size_t state_size, uint8_t *mem, size_t mem_size, uint16_t budget,
                 uint8_t *answer, size_t answer_size);

/* A run of one step. */
uint16_t phk_step(uint8_t *state, size_t state_size, uint8_t *mem, size_t mem_size, uint8_t *answer, size_t answer_size);

/* Screens the routine from `first` to `last`, both in it; `marks` has a byte for each byte of the window. Answers an
 * enum phk_refusal or PHK_MALFORMED. */
uint8_t phk_screen(const uint8_t *mem, size_t mem_size, uint16_t first, uint16_t last, uint8_t *marks, size_t marks_size,
                   uint8_t *answer, size_t answer_size);

/* Words of a block, got and put. */
static inline uint16_t phk_get16(const uint8_t *block, size_t at)
{
    return (uint16_t)(block[at] | (unsigned)block[at + 1] << 8);
}

static inline uint32_t phk_get32(const uint8_t *block, size_t at)
{
    return phk_get16(block, at) | (uint32_t)phk_get16(block, at + 2) << 16;
}

static inline void phk_put16(uint8_t *block, size_t at, uint16_t word)
{
    block[at] = (uint8_t)(word & 0xFF);
    block[at + 1] = (uint8_t)(word >> 8);
}

/* The refusal in an outcome, an enum phk_refusal; PHK_REFUSAL_NONE if it is none. */
static inline uint16_t phk_refusal(uint16_t outcome)
{
    return (uint16_t)(outcome > 16 && outcome != PHK_MALFORMED ? outcome - 16 : PHK_REFUSAL_NONE);
}

/* What a number of phk_step or phk_run says. */
static inline const char *phk_outcome_text(uint16_t outcome)
{
    switch (outcome) {
    case PHK_OUTCOME_NORMAL: return "an instruction ran";
    case PHK_OUTCOME_INFINITE_LOOP: return "infinite loop: a jump to its own start";
    case PHK_OUTCOME_HALTING: return "halted, and no interrupt is pending";
    case PHK_OUTCOME_RUNNING_HDMA: return "HDMA is running";
    case PHK_OUTCOME_STOPPED: return "stopped";
    case PHK_OUTCOME_BREAKPOINT: return "breakpoint: LD B,B";
    case PHK_OUTCOME_NOTHING_RUN: return "nothing run: the budget is 0";
    case PHK_OUTCOME_INTERRUPT_VBLANK: return "interrupt 0 (VBlank) was taken";
    case PHK_OUTCOME_INTERRUPT_LCD_STAT: return "interrupt 1 (LCD STAT) was taken";
    case PHK_OUTCOME_INTERRUPT_TIMER: return "interrupt 2 (timer) was taken";
    case PHK_OUTCOME_INTERRUPT_SERIAL: return "interrupt 3 (serial) was taken";
    case PHK_OUTCOME_INTERRUPT_JOYPAD: return "interrupt 4 (joypad) was taken";
    case PHK_OUTCOME_REFUSED_MEMORY_LENGTH: return "refusal 1: memory is not 65,536 bytes long";
    case PHK_OUTCOME_REFUSED_LOW_BITS_OF_F: return "refusal 2: a low bit of F is set";
    case PHK_OUTCOME_REFUSED_ILLEGAL_OPCODE: return "refusal 3: illegal opcode";
    case PHK_MALFORMED: return "a malformed block: a wrong length, a flag above 1 or a halt mode above 3";
    default: return "no outcome that this header knows: take header and library from one build";
    }
}

/* What a number of phk_screen says. */
static inline const char *phk_screen_text(uint8_t refusal)
{
    switch (refusal) {
    case PHK_REFUSAL_NONE: return "the routine passes";
    case PHK_REFUSAL_MEMORY_LENGTH: return "refusal 1: memory is not 65,536 bytes long";
    case PHK_REFUSAL_WINDOW_REVERSED: return "refusal 4: the window's first address is above its last";
    case PHK_REFUSAL_WINDOW_TOO_LONG: return "refusal 5: the window is longer than 4,096 bytes";
    case PHK_REFUSAL_MARKS_LENGTH: return "refusal 6: the marks are not as long as the window";
    case PHK_REFUSAL_FORBIDDEN_OPCODE: return "refusal 7: forbidden opcode";
    case PHK_REFUSAL_PAST_THE_END: return "refusal 8: an instruction runs past the window's end";
    case PHK_REFUSAL_FALLS_THROUGH: return "refusal 9: the last instruction may fall through";
    case PHK_REFUSAL_JUMP_UNMARKED: return "refusal 10: a jump to an address that is no instruction start";
    case PHK_MALFORMED: return "a malformed block: its length is not 4";
    default: return "no refusal of the screen that this header knows: take header and library from one build";
    }
}

#ifdef __cplusplus
}
#endif
#endif
