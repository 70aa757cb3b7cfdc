/* Previews and rewrites a small netlist with an asynchronous ROM into one with a clocked ROM, and runs both side by side for five clocks, then each by
 * a list of five clocks in one call; then does so with a ROM straight behind a sensor's port, which only the late start accepts. */
#include <stdio.h>
#include <string.h>

#include "punqelis.h"

/* A two-bit register (reset 1) that adds up a table of 3, 1, 2, 2 at its own address. */
static const uint8_t old_file[] = {
    0x01, 0x00, 0x01, 0x01,                                     /* head */
    0x02, 0x00, 0x0A, 0x02, 0x02, 0, 3, 0, 1, 0, 2, 0, 2,       /* table 0 */
    0x03, 0x00, 0x06, 0x02, 0x02, 0x00, 0x02, 0x00, 0x01,       /* 0 register of 2, reset 1 */
    0x03, 0x00, 0x05, 0x03, 0x02, 0x00, 0x00, 0x00,             /* 1 asynchronous ROM of 0 */
    0x03, 0x00, 0x07, 0x05, 0x02, 0x05, 0x00, 0x00, 0x00, 0x01, /* 2 add of 0 and 1 */
    0x03, 0x00, 0x04, 0x01, 0x02, 0x00, 0x00,                   /* 3 output of 0 */
    0x04, 0x00, 0x00                                            /* end */
};

/* What the specification gives for it, byte for byte. */
static const uint8_t expected_file[] = {
    0x01, 0x00, 0x01, 0x01,                                     /* head */
    0x02, 0x00, 0x0A, 0x02, 0x02, 0, 3, 0, 1, 0, 2, 0, 2,       /* table 0 */
    0x03, 0x00, 0x07, 0x04, 0x02, 0x00, 0x01, 0x00, 0x00, 0x01, /* 0 clocked ROM of 1, reset 1 */
    0x03, 0x00, 0x07, 0x05, 0x02, 0x05, 0x00, 0x03, 0x00, 0x00, /* 1 add of 3 and 0 */
    0x03, 0x00, 0x04, 0x01, 0x02, 0x00, 0x04,                   /* 2 output of 4 */
    0x03, 0x00, 0x06, 0x02, 0x02, 0x00, 0x01, 0x00, 0x01,       /* 3 register of 1, reset 1 */
    0x03, 0x00, 0x06, 0x02, 0x02, 0x00, 0x01, 0x00, 0x01,       /* 4 register of 1, reset 1 */
    0x04, 0x00, 0x00                                            /* end */
};

/* A two-bit sensor, an asynchronous ROM straight behind its port, a gate, a register (reset 2). */
static const uint8_t sensor_file[] = {
    0x01, 0x00, 0x01, 0x01,                                     /* head */
    0x02, 0x00, 0x0A, 0x02, 0x02, 0, 3, 0, 1, 0, 2, 0, 2,       /* table 0 */
    0x03, 0x00, 0x02, 0x00, 0x02,                               /* 0 input */
    0x03, 0x00, 0x05, 0x03, 0x02, 0x00, 0x00, 0x00,             /* 1 asynchronous ROM of 0 */
    0x03, 0x00, 0x05, 0x05, 0x02, 0x01, 0x00, 0x01,             /* 2 not of 1 */
    0x03, 0x00, 0x06, 0x02, 0x02, 0x00, 0x02, 0x00, 0x02,       /* 3 register of 2, reset 2 */
    0x03, 0x00, 0x04, 0x01, 0x02, 0x00, 0x03,                   /* 4 output of 3 */
    0x04, 0x00, 0x00                                            /* end */
};

/* Prints a refusal, and tells whether there is one. */
static int refused(const char *call, uint32_t answer)
{
    if (PUNQELIS_IS_REFUSED(answer)) {
        printf("%s: refused %u %u\n", call, (unsigned)PUNQELIS_REFUSAL(answer),
               (unsigned)PUNQELIS_PLACE(answer));
        return 1;
    }
    return 0;
}

/* The adder by lists from reset on. Six clocks are refused, since the outputs have five rows, and
 * change nothing; five are run. Tells whether something is not as it should be. */
static int adder_list(const uint8_t *file, size_t file_len, uint8_t *state, size_t state_len)
{
    static const uint8_t expected[10] = {0, 1, 0, 2, 0, 0, 0, 3, 0, 1};
    static const uint8_t untouched[10] = {0};
    const uint8_t no_inputs[1] = {0};
    uint8_t outputs[10] = {0};
    uint8_t reset_state[6]; /* no file's state here is longer */
    uint32_t answer;

    if (refused("reset", punqelis_reset(file, file_len, state, state_len)))
        return 1;
    memcpy(reset_state, state, state_len);
    answer = punqelis_run_list(file, file_len, state, state_len,
                               no_inputs, 0, outputs, sizeof outputs, 6);
    if (!refused("list of 6 clocks", answer) || PUNQELIS_REFUSAL(answer) != 15
        || memcmp(state, reset_state, state_len) != 0
        || memcmp(outputs, untouched, sizeof outputs) != 0) {
        printf("not refused with 15, or something changed\n");
        return 1;
    }

    answer = punqelis_run_list(file, file_len, state, state_len,
                               no_inputs, 0, outputs, sizeof outputs, 5);
    if (refused("list of 5 clocks", answer))
        return 1;
    printf("list of 5 clocks: %u %u %u %u %u\n", (unsigned)outputs[1], (unsigned)outputs[3],
           (unsigned)outputs[5], (unsigned)outputs[7], (unsigned)outputs[9]);
    if (answer != 0 || memcmp(outputs, expected, sizeof outputs) != 0) {
        printf("not the expected outputs\n");
        return 1;
    }
    return 0;
}

/* The sensor: the plain mode refuses it, late-started it runs like the old file. Tells whether
 * something is not as it should be. */
static int sensor(void)
{
    static const uint8_t readings[] = {1, 0, 3, 2, 1};
    static const unsigned expected[] = {2, 2, 0, 1, 1};
    static uint8_t new_file[PUNQELIS_MAX_FILE];
    uint8_t old_state[2]; /* the register */
    uint8_t new_state[4]; /* the clocked ROM, and the register that steers the gate */
    uint32_t new_len = punqelis_rewrite(sensor_file, sizeof sensor_file, new_file, sizeof new_file);
    size_t clock;

    if (!refused("rewrite", new_len) || PUNQELIS_REFUSAL(new_len) != 12)
        return 1;
    new_len = punqelis_rewrite_late(sensor_file, sizeof sensor_file, new_file, sizeof new_file);
    if (refused("late start", new_len)
        || refused("check", punqelis_check(new_file, new_len))
        || refused("reset", punqelis_reset(sensor_file, sizeof sensor_file,
                                           old_state, sizeof old_state))
        || refused("reset", punqelis_reset(new_file, new_len, new_state, sizeof new_state)))
        return 1;
    printf("late start: %u bytes into %u\n", (unsigned)sizeof sensor_file, (unsigned)new_len);

    for (clock = 0; clock < sizeof readings; clock++) {
        const uint8_t inputs[2] = {0, readings[clock]};
        uint8_t old_out[2] = {0, 0}, new_out[2] = {0, 0};

        if (refused("run", punqelis_run(sensor_file, sizeof sensor_file, old_state, sizeof old_state,
                                        inputs, sizeof inputs, old_out, sizeof old_out))
            || refused("run", punqelis_run(new_file, new_len, new_state, sizeof new_state,
                                           inputs, sizeof inputs, new_out, sizeof new_out)))
            return 1;
        printf("sensor, clock %u: old %u, new %u\n", (unsigned)clock, (unsigned)old_out[1],
               (unsigned)new_out[1]);
        if (memcmp(old_out, new_out, sizeof old_out) != 0 || old_out[1] != expected[clock]) {
            printf("expected %u\n", expected[clock]);
            return 1;
        }
    }
    return 0;
}

int main(void)
{
    static const unsigned expected[] = {1, 2, 0, 3, 1};
    static uint8_t new_file[PUNQELIS_MAX_FILE]; /* no rewritten file is longer */
    uint8_t old_state[2]; /* the register */
    uint8_t new_state[6]; /* the clocked ROM, and a register for each reader of the add */
    const uint8_t no_inputs[1] = {0};
    static const unsigned expected_sources[] = {0, 2, 0}; /* both registers read the add */
    uint8_t by_source[PUNQELIS_MAX_SOURCES]; /* no list is longer */
    const struct punqelis_size size =
        punqelis_preview(old_file, sizeof old_file, by_source, sizeof by_source);
    uint32_t new_len;
    size_t clock, node;

    if (refused("preview", size.answer))
        return 1;
    printf("preview: clocked ROMs %u, registers %u, bytes %u, largest lead %u\n",
           (unsigned)size.clocked_roms, (unsigned)size.registers, (unsigned)size.answer,
           (unsigned)size.largest_lead);
    if (size.clocked_roms != 1 || size.registers != 2 || size.answer != sizeof expected_file
        || size.largest_lead != 1) {
        printf("not the expected size\n");
        return 1;
    }

    if (size.sources != sizeof expected_sources / sizeof expected_sources[0]) {
        printf("not the expected number of sources\n");
        return 1;
    }
    for (node = 0; node < size.sources; node++) {
        const unsigned registers = by_source[2 * node] * 256u + by_source[2 * node + 1];

        printf("registers from node %u: %u\n", (unsigned)node, registers);
        if (registers != expected_sources[node]) {
            printf("expected %u\n", expected_sources[node]);
            return 1;
        }
    }

    /* As many bytes as the preview says are enough, and all of them are written. */
    new_len = punqelis_rewrite(old_file, sizeof old_file, new_file, size.answer);
    if (refused("rewrite", new_len))
        return 1;
    printf("rewritten: %u bytes into %u\n", (unsigned)sizeof old_file, (unsigned)new_len);
    if (new_len != size.answer || memcmp(new_file, expected_file, new_len) != 0) {
        printf("not the expected file\n");
        return 1;
    }

    if (refused("check", punqelis_check(new_file, new_len))
        || refused("reset", punqelis_reset(old_file, sizeof old_file, old_state, sizeof old_state))
        || refused("reset", punqelis_reset(new_file, new_len, new_state, sizeof new_state)))
        return 1;

    for (clock = 0; clock < sizeof expected / sizeof expected[0]; clock++) {
        uint8_t old_out[2] = {0, 0}, new_out[2] = {0, 0};
        unsigned old_word, new_word;

        if (refused("run", punqelis_run(old_file, sizeof old_file, old_state, sizeof old_state,
                                        no_inputs, 0, old_out, sizeof old_out))
            || refused("run", punqelis_run(new_file, new_len, new_state, sizeof new_state,
                                           no_inputs, 0, new_out, sizeof new_out)))
            return 1;
        old_word = old_out[0] * 256u + old_out[1];
        new_word = new_out[0] * 256u + new_out[1];
        printf("clock %u: old %u, new %u\n", (unsigned)clock, old_word, new_word);
        if (memcmp(old_out, new_out, sizeof old_out) != 0 || old_word != expected[clock]) {
            printf("expected %u\n", expected[clock]);
            return 1;
        }
    }
    if (adder_list(old_file, sizeof old_file, old_state, sizeof old_state)
        || adder_list(new_file, new_len, new_state, sizeof new_state))
        return 1;
    return sensor();
}
