/* SPDX-License-Identifier: MIT
 *
 * The core from C: the version, power-on, a step, a run, a passed routine, a refused routine, a malformed block.
 * Each expected value is a row or a table of docs/01-scope.md; a line says `ok` or `WRONG`, and the status is 1 after a WRONG.
 * It is C99, and C++ as well.
 */
#include <stdio.h>
#include <string.h>

#include "phkarotuk.h"

static uint8_t memory[PHK_SIZE_MEMORY];
static int wrong;

static void expect(const char *what, unsigned long got, unsigned long want)
{
    printf("  %-44s %04lX  %s\n", what, got, got == want ? "ok" : "WRONG");
    if (got != want) {
        printf("  %-44s %04lX was expected\n", "", want);
        wrong = 1;
    }
}

/* `size` bytes at an address, as a dump or a cartridge would have them */
static void put_bytes(unsigned at, const uint8_t *bytes, size_t size)
{
    memcpy(memory + at, bytes, size);
}

/* two registers of a state block as one number */
static unsigned pair(const uint8_t *state, size_t high)
{
    return (unsigned)state[high] << 8 | state[high + 1];
}

static uint16_t step(uint8_t *state, uint8_t *answer)
{
    return phk_step(state, PHK_SIZE_STATE, memory, sizeof memory, answer, PHK_SIZE_ANSWER);
}

/* header and library are of one build */
static void version(void)
{
    puts("version");
    expect("library, as the header has it", (unsigned long)(phk_version() >> 32), PHK_VERSION_LIBRARY);
    expect("document, as the header has it", (unsigned long)(phk_version() & 0xFFFFFFFF), PHK_VERSION_DOCUMENT);
    expect("both at once", phk_version() == PHK_VERSION, 1);
}

/* a row of the document's power-on table; "All four have IME, EI latch, stopped and HDMA running clear, and NotHalting" */
static void power_on_row(const char *name, uint16_t model, const unsigned want[6], unsigned dmg)
{
    static const uint8_t zeros[6] = { 0 };
    uint8_t state[PHK_SIZE_STATE];

    memset(state, 0xEE, sizeof state);
    printf("power-on: %s\n", name);
    expect("done", phk_power_on(state, sizeof state, model), 0);
    expect("AF", pair(state, PHK_AT_A), want[0]);
    expect("BC", pair(state, PHK_AT_B), want[1]);
    expect("DE", pair(state, PHK_AT_D), want[2]);
    expect("HL", pair(state, PHK_AT_H), want[3]);
    expect("SP", phk_get16(state, PHK_AT_SP), want[4]);
    expect("PC", phk_get16(state, PHK_AT_PC), want[5]);
    expect("IME, EI latch, halt, stopped, HDMA are 0", memcmp(state + PHK_AT_IME, zeros, 5) == 0, 1);
    expect("a DMG", state[PHK_AT_DMG], dmg);
    expect("the reserved bytes are 0", memcmp(state + PHK_AT_RESERVED, zeros, 6) == 0, 1);
}

static void power_on(void)
{
    static const unsigned dmg[] = { 0x01B0, 0x0013, 0x00D8, 0x014D, 0xFFFE, 0x0100 };
    static const unsigned cgb[] = { 0x1180, 0x0000, 0xFF56, 0x000D, 0xFFFE, 0x0100 };
    static const unsigned cgb_dmg[] = { 0x1180, 0x0000, 0x0008, 0x007C, 0xFFFE, 0x0100 };
    static const unsigned zero[] = { 0, 0, 0, 0, 0, 0 };
    uint8_t block[PHK_SIZE_STATE + 1], before[sizeof block];

    power_on_row("DMG", PHK_MODEL_DMG, dmg, 1);
    power_on_row("CGB, CGB cartridge", PHK_MODEL_CGB, cgb, 0);
    power_on_row("CGB, DMG cartridge", PHK_MODEL_CGB_DMG, cgb_dmg, 0);
    power_on_row("without a boot skip", PHK_MODEL_ZERO, zero, 1);

    puts("power-on of what is no model, and of what is no state block");
    memset(block, 0xEE, sizeof block);
    memcpy(before, block, sizeof block);
    expect("model 4 is malformed", phk_power_on(block, PHK_SIZE_STATE, 4), PHK_MALFORMED);
    expect("model 256 is malformed", phk_power_on(block, PHK_SIZE_STATE, 256), PHK_MALFORMED);
    expect("25 bytes are malformed", phk_power_on(block, sizeof block, PHK_MODEL_DMG), PHK_MALFORMED);
    expect("23 bytes are malformed", phk_power_on(block, PHK_SIZE_STATE - 1, PHK_MODEL_DMG), PHK_MALFORMED);
    expect("the block is unchanged", memcmp(before, block, sizeof block) == 0, 1);
}

/* "SP=00FF, ADD SP,+1: 0100, H and C set, 4 M-cycles" */
static void one_step(void)
{
    static const uint8_t add_sp[] = { 0xE8, 0x01 };
    uint8_t state[PHK_SIZE_STATE], answer[PHK_SIZE_ANSWER];

    puts("a step: ADD SP,+1");
    phk_power_on(state, sizeof state, PHK_MODEL_DMG);
    put_bytes(0x0100, add_sp, sizeof add_sp);
    phk_put16(state, PHK_AT_SP, 0x00FF);
    expect("outcome: Normal", step(state, answer), PHK_OUTCOME_NORMAL);
    expect("SP", phk_get16(state, PHK_AT_SP), 0x0100);
    expect("F: H and C", state[PHK_AT_F], PHK_FLAG_H | PHK_FLAG_C);
    expect("M-cycles", phk_get32(answer, PHK_AT_ANSWER_M_CYCLES), 4);
}

/* "A=45 ADD 38, DAA: 83, C clear", then a jump to itself, after which a run stops */
static void a_run(void)
{
    static const uint8_t sum[] = { 0x3E, 0x45, 0xC6, 0x38, 0x27, 0x18, 0xFE };
    uint8_t state[PHK_SIZE_STATE], answer[PHK_SIZE_ANSWER];
    uint16_t number;

    puts("a run: LD A,45  ADD A,38  DAA  JR to itself");
    phk_power_on(state, sizeof state, PHK_MODEL_DMG);
    put_bytes(0x0100, sum, sizeof sum);
    number = phk_run(state, sizeof state, memory, sizeof memory, 1000, answer, sizeof answer);
    printf("  %s\n", phk_outcome_text(number));
    expect("outcome: InfiniteLoop", number, PHK_OUTCOME_INFINITE_LOOP);
    expect("the same in the answer block", phk_get16(answer, PHK_AT_ANSWER_OUTCOME), PHK_OUTCOME_INFINITE_LOOP);
    expect("A", state[PHK_AT_A], 0x83);
    expect("C", state[PHK_AT_F] & PHK_FLAG_C, 0);
    expect("steps of 1000", phk_get16(answer, PHK_AT_ANSWER_STEPS), 4);
}

/* STOP sets the flag in the state, and the step after it has the outcome: two numbers that are not the same */
static void stopped(void)
{
    static const uint8_t stop[] = { 0x10 };
    uint8_t state[PHK_SIZE_STATE], answer[PHK_SIZE_ANSWER];

    puts("STOP");
    phk_power_on(state, sizeof state, PHK_MODEL_DMG);
    put_bytes(0x0100, stop, sizeof stop);
    expect("outcome: Normal", step(state, answer), PHK_OUTCOME_NORMAL);
    expect("the flag is set", state[PHK_AT_STOPPED], 1);
    expect("then: Stopped", step(state, answer), PHK_OUTCOME_STOPPED);
}

/* "18 FE passes, marks 1 0." "76: 7." */
static void two_screens(void)
{
    static const uint8_t loop[] = { 0x18, 0xFE }, halt[] = { 0x76 };
    uint8_t marks[2], answer[PHK_SIZE_SCREEN], number;

    puts("the screen: a routine that passes, and one with a HALT");
    put_bytes(0x4000, loop, sizeof loop);
    expect("18 FE passes", phk_screen(memory, sizeof memory, 0x4000, 0x4001, marks, 2, answer, sizeof answer), PHK_REFUSAL_NONE);
    expect("its marks", (unsigned)marks[0] << 8 | marks[1], 0x0100);
    put_bytes(0x5000, halt, sizeof halt);
    number = phk_screen(memory, sizeof memory, 0x5000, 0x5000, marks, 1, answer, sizeof answer);
    printf("  %s\n", phk_screen_text(number));
    expect("76 is refused as 7", number, PHK_REFUSAL_FORBIDDEN_OPCODE);
    expect("an address is named", answer[PHK_AT_SCREEN_NAMED], 1);
    expect("the address", phk_get16(answer, PHK_AT_SCREEN_ADDRESS), 0x5000);
}

/* a refusal of the document (no. 3, so outcome 19), and a block that is none */
static void refusals(void)
{
    static const uint8_t illegal[] = { 0xD3 };
    uint8_t state[PHK_SIZE_STATE], before[PHK_SIZE_STATE], answer[PHK_SIZE_ANSWER];
    uint16_t number;

    puts("refusals: an illegal opcode, and a flag that is 2");
    phk_power_on(state, sizeof state, PHK_MODEL_DMG);
    put_bytes(0x0100, illegal, sizeof illegal);
    number = step(state, answer);
    printf("  %s\n", phk_outcome_text(number));
    expect("D3 is refused", number, PHK_OUTCOME_REFUSED_ILLEGAL_OPCODE);
    expect("as 3", phk_refusal(number), PHK_REFUSAL_ILLEGAL_OPCODE);
    expect("PC as before the fetch", phk_get16(state, PHK_AT_PC), 0x0100);
    state[PHK_AT_IME] = 2;
    memcpy(before, state, sizeof state);
    expect("IME=2 is malformed", step(state, answer), PHK_MALFORMED);
    expect("which is no refusal", phk_refusal(PHK_MALFORMED), PHK_REFUSAL_NONE);
    expect("the state is unchanged", memcmp(before, state, sizeof state) == 0, 1);
}

/* which numbers have a text of their own: the document's outcomes 0 to 6 and 8 to 12, refusals 1 to 3 as 16 + n; of the screen 0, 1 and 4 to 10; and 255 */
static void texts(void)
{
    const char *no_outcome = phk_outcome_text(7), *no_refusal = phk_screen_text(2);
    unsigned n, outcomes = 0, refusals = 0;

    puts("texts");
    for (n = 0; n < 65536; n++) outcomes += strcmp(phk_outcome_text((uint16_t)n), no_outcome) != 0;
    for (n = 0; n < 256; n++) refusals += strcmp(phk_screen_text((uint8_t)n), no_refusal) != 0;
    expect("outcomes with a text", outcomes, 7 + 5 + 3 + 1);
    expect("answers of the screen with a text", refusals, 1 + 1 + 7 + 1);
    expect("outcome 4", strcmp(phk_outcome_text(PHK_OUTCOME_STOPPED), "stopped") == 0, 1);
}

int main(void)
{
    version();
    power_on();
    one_step();
    a_run();
    stopped();
    two_screens();
    refusals();
    texts();
    puts(wrong ? "WRONG" : "all ok");
    return wrong;
}
