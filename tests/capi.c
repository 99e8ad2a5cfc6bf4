/* A small program over the C interface: it links against the proved library and tries each function once or more, refusals too. */
#include "chaemodul.h"

#include <stdio.h>
#include <string.h>

static int failures = 0;

static void expect(int holds, const char *what) {
    if (!holds) {
        failures++;
        printf("capi: not so: %s\n", what);
    }
}

static void initial(uint32_t s[25], uint32_t v) {
    static const uint32_t rest[25] = {0, 0, 0, 0, 1, 1, 1, 1, 0, 1, 0, 0, 20, 0, 0, 0, 1, 0, 40, 1, 0, 0, 0, 0, 1};
    memcpy(s, rest, sizeof rest);
    s[0] = s[1] = s[2] = s[3] = s[17] = s[21] = v;
}

/* P3: a write of 9 by the short way, then a read of it. */
static void one_write_one_read(void) {
    uint32_t s[25];
    initial(s, 5);
    expect(chaemodul_writer_start(s, 9) == 0 && s[12] == 21, "20 goes to 21");
    expect(chaemodul_writer_step(s) == 0 && s[12] == 22, "21 goes to 22");
    expect(chaemodul_writer_step(s) == 0 && s[12] == 27, "22 goes to 27");
    expect(s[15] == 1 && s[16] == 2, "the write has start 1 and number 2");
    expect(chaemodul_writer_step(s) == 0 && s[12] == 20 && s[24] == 2, "27 goes to 20 and raises masq to 2");
    for (int i = 0; i < 5; i++)
        expect(chaemodul_reader_step(s) == 0, "a reader step");
    expect(s[18] == 40 && s[21] == 9 && s[22] == 2 && s[23] == 2, "the read returns 9, start 2, number 2");
}

static void refused_moves(void) {
    uint32_t s[25], before[25];
    initial(s, 5);
    memcpy(before, s, sizeof s);
    expect(chaemodul_writer_step(s) == 6, "no other writer step at 20");
    expect(chaemodul_writer_flicker(s, 1) == 6, "no writer flicker at 20");
    expect(chaemodul_reader_flicker(s, 0) == 6, "no reader flicker at 40");
    expect(chaemodul_writer_flicker(s, 2) == 9, "a bit above 1");
    expect(chaemodul_reader_flicker(s, 256) == 9, "a bit that does not fit");
    expect(memcmp(before, s, sizeof s) == 0, "a refused state is untouched");
    s[12] = 4096 + 20;
    memcpy(before, s, sizeof s);
    expect(chaemodul_reader_step(s) == 9 && memcmp(before, s, sizeof s) == 0, "a location that does not fit");
    initial(s, 5);
    s[18] = 43, s[19] = 0, s[20] = 1;
    memcpy(before, s, sizeof s);
    expect(chaemodul_reader_step(s) == 10 && memcmp(before, s, sizeof s) == 0, "a clash");
    initial(s, 5);
    s[16] = 65535;
    expect(chaemodul_writer_start(s, 9) == 12, "the writer's number is spent");
}

/* P2: initial 5 and five reader steps; the log has 17 bytes. */
static void run_and_judge(void) {
    static const uint8_t schedule[22] = {1, 0, 4, 0, 0, 0, 5, 5, 0, 0, 5, 0, 0, 5, 0, 0, 5, 0, 0, 5, 0, 0};
    static const uint8_t log[17] = {1, 0, 4, 0, 0, 0, 5, 9, 0, 0, 10, 0, 4, 0, 0, 0, 5};
    uint8_t out[20];
    uint32_t a[3], j[7];
    memset(out, 0xAA, sizeof out);
    expect(chaemodul_run(schedule, sizeof schedule, out, 16, a) == 8 && a[0] == 8 && a[1] == 0 && a[2] == 0, "one byte short");
    expect(out[0] == 0xAA && out[15] == 0xAA, "the output is untouched");
    expect(chaemodul_run(schedule, sizeof schedule, out, sizeof out, a) == 0 && a[1] == 0 && a[2] == 17, "the run answers 0, length 17");
    expect(memcmp(out, log, sizeof log) == 0 && out[17] == 0xAA && out[19] == 0xAA, "the log, and the bytes behind it");
    expect(chaemodul_judge(out, 17, j) == 0 && j[1] == 0 && j[2] == 1 && j[3] == 0, "the log is atomic");
    expect(j[4] == 0 && j[5] == 1 && j[6] == 0, "no write, one read, none overlapped");
    expect(chaemodul_judge(out, 16, j) == 1 && j[1] == 10 && j[2] == 0 && j[5] == 0, "a cut body, at 10");
    expect(chaemodul_judge(out, 0, j) == 4 && j[1] == 0, "a log of no bytes");
}

int main(void) {
    one_write_one_read();
    refused_moves();
    run_and_judge();
    if (failures == 0)
        printf("capi: all as it should be\n");
    return failures != 0;
}
