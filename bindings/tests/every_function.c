/* Calls every function through the header, so that its declarations are held
   to the library: right calls, and calls with nothing but null pointers. */
#include <stdio.h>
#include <string.h>
#include "plug.h"

#define CHECK(condition)                                                      \
    do {                                                                      \
        if (!(condition)) {                                                   \
            printf("line %d: %s\n", __LINE__, #condition);                    \
            return 1;                                                         \
        }                                                                     \
    } while (0)

static uint8_t image[PLUG_IMAGE_SIZE];
static uint8_t sheet[PLUG_SHEET_SIZE];
static uint8_t text[PLUG_LIST_TEXT_SIZE];
static uint8_t number[PLUG_NUMBER_SIZE] = {0x0B, 1, 2, 3, 4, 5, 6, 0};
static uint8_t bytes[PLUG_PAGE_SIZE];
static uint8_t page[PLUG_PAGE_SIZE];
static uint8_t chip[PLUG_CHIP_STATE_SIZE];
static uint8_t reader[PLUG_NUMBER_STATE_SIZE];
static uint8_t page_reader[PLUG_PAGE_STATE_SIZE];
static uint8_t publisher[PLUG_PUBLISHER_STATE_SIZE];
static uint8_t answer[PLUG_ANSWER_SIZE];
static uint8_t events[2000];
static uint8_t replies[2000];

static int crcs(void)
{
    const uint8_t note[8] = {0x02, 0x1C, 0xB8, 0x01, 0x00, 0x00, 0x00, 0xA2};
    const uint8_t byte = 0x75;
    CHECK(plug_crc8(0, note, 7) == 0xA2);
    CHECK(plug_crc8(0, note, 8) == 0);
    CHECK(plug_crc16(0x90F1, &byte, 1) == 0x6390);
    CHECK(plug_crc8(0x5A, NULL, 0) == 0x5A);
    CHECK(plug_crc16(0xA55A, NULL, 0) == 0xA55A);
    number[7] = plug_crc8(0, number, 7);
    return 0;
}

static int on_an_image(void)
{
    static uint8_t quick[PLUG_IMAGE_SIZE];
    uint8_t old[PLUG_PAGE_SIZE];
    memset(image, 0xFF, sizeof image);
    memset(bytes, 0x3C, sizeof bytes);
    memset(image + 32 * 5, 0x77, 32);
    CHECK(plug_page(image, sizeof image, 5, old, sizeof old)
          == PLUG_ACCEPTED);
    CHECK(old[0] == 0x77 && old[31] == 0x77);
    CHECK(plug_free_page(image, sizeof image, 5, answer, sizeof answer)
          == PLUG_ACCEPTED);
    CHECK(answer[0] == PLUG_NO_EVENT && answer[1] == 1);
    memcpy(quick, image, sizeof quick);
    CHECK(plug_update(image, sizeof image, number, sizeof number, bytes,
                      sizeof bytes, 5, 1222, answer, sizeof answer)
          == PLUG_ACCEPTED);
    CHECK(answer[0] == PLUG_NO_EVENT && answer[1] == 5 && answer[2] == 1);
    memset(answer, 0, sizeof answer);
    CHECK(plug_update_quick(quick, sizeof quick, number, sizeof number,
                            bytes, sizeof bytes, 5, 678, answer,
                            sizeof answer) == PLUG_ACCEPTED);
    CHECK(answer[0] == PLUG_NO_EVENT && answer[1] == 5 && answer[2] == 1);
    CHECK(memcmp(quick, image, sizeof quick) == 0);
    CHECK(plug_walk(image, sizeof image, 5, answer, sizeof answer)
          == PLUG_ACCEPTED);
    CHECK(answer[1] == 1 && answer[2] == 1);
    CHECK(plug_page(image, sizeof image, 1, page, sizeof page)
          == PLUG_ACCEPTED);
    CHECK(memcmp(page, bytes, sizeof page) == 0);
    /* page 5 ends at page 1 now */
    image[PLUG_STATUS_OFFSET + PLUG_DATA_PROTECTION] = 0xFD;
    CHECK(plug_update(image, sizeof image, number, sizeof number, bytes,
                      sizeof bytes, 5, 1222, answer, sizeof answer)
          == PLUG_REFUSED_DATA_PROTECTED);
    CHECK(answer[0] == PLUG_NO_EVENT && answer[1] == 1);
    image[PLUG_STATUS_OFFSET + PLUG_DATA_PROTECTION] = 0xFF;
    image[PLUG_STATUS_OFFSET + PLUG_REDIRECTION + 7] = 255 - 200;
    CHECK(plug_walk(image, sizeof image, 7, answer, sizeof answer)
          == PLUG_REFUSED_OUTSIDE);
    CHECK(answer[0] == PLUG_NO_EVENT && answer[1] == 200);
    return 0;
}

static int number_read(void)
{
    unsigned i;
    uint8_t reply = 1;
    CHECK(plug_chip_power_up(number, sizeof number, chip, sizeof chip)
          == PLUG_ACCEPTED);
    CHECK(plug_number_start(reader, sizeof reader) == PLUG_ACCEPTED);
    for (i = 0; i < 75; i++) {
        replies[i] = reply;
        CHECK(plug_number_call(reader, sizeof reader, reply, answer,
                               sizeof answer) == PLUG_ACCEPTED);
        events[i] = answer[0];
        if (i < 74)
            CHECK(plug_chip_events(chip, sizeof chip, answer, 1, image,
                                   sizeof image, &reply, 1)
                  == PLUG_ACCEPTED);
    }
    CHECK(answer[0] == PLUG_NO_EVENT);
    CHECK(memcmp(answer + 1, number, sizeof number) == 0);
    CHECK(events[0] == PLUG_EVENT_RESET && events[1] == PLUG_EVENT_SLOT_1);
    CHECK(events[3] == PLUG_EVENT_SLOT_0);
    {
        uint8_t drawn[74];
        uint8_t told[75];
        CHECK(plug_chip_run(number, sizeof number, events, 74, image,
                            sizeof image, drawn, sizeof drawn)
              == PLUG_ACCEPTED);
        CHECK(memcmp(drawn, replies + 1, sizeof drawn) == 0);
        memset(answer, 0, sizeof answer);
        CHECK(plug_number_run(replies, 75, told, sizeof told, answer,
                              sizeof answer) == PLUG_ACCEPTED);
        CHECK(memcmp(told, events, sizeof told) == 0);
        CHECK(memcmp(answer + 1, number, sizeof number) == 0);
    }
    return 0;
}

static int page_read(void)
{
    size_t calls = 0;
    uint8_t reply = 0;
    uint8_t told[2000];
    CHECK(plug_page_start(5, page_reader, sizeof page_reader)
          == PLUG_ACCEPTED);
    memset(page, 0, sizeof page);
    do {
        replies[calls] = reply;
        CHECK(plug_page_call(page_reader, sizeof page_reader, reply, page,
                             sizeof page, answer, sizeof answer)
              == PLUG_ACCEPTED);
        events[calls++] = answer[0];
        if (answer[0] != PLUG_NO_EVENT)
            CHECK(plug_chip_events(chip, sizeof chip, answer, 1, image,
                                   sizeof image, &reply, 1)
                  == PLUG_ACCEPTED);
    } while (answer[0] != PLUG_NO_EVENT);
    CHECK(calls == 388 && answer[1] == 1 && answer[2] == 1);
    CHECK(memcmp(page, bytes, sizeof page) == 0);
    memset(page, 0, sizeof page);
    CHECK(plug_page_run(5, replies, calls, told, calls, page, sizeof page,
                        answer, sizeof answer) == PLUG_ACCEPTED);
    CHECK(memcmp(told, events, calls) == 0);
    CHECK(memcmp(page, bytes, sizeof page) == 0);
    CHECK(answer[1] == 1 && answer[2] == 1);
    return 0;
}

/* The start and the run of an update in a mode. */
static uint32_t publisher_start(int quick)
{
    if (quick)
        return plug_publisher_start_quick(image, sizeof image, bytes,
                                          sizeof bytes, 5, publisher,
                                          sizeof publisher, answer,
                                          sizeof answer);
    return plug_publisher_start(image, sizeof image, bytes, sizeof bytes, 5,
                                publisher, sizeof publisher, answer,
                                sizeof answer);
}

static uint32_t publisher_run(int quick, const uint8_t *from, size_t calls,
                              uint8_t *told)
{
    if (quick)
        return plug_publisher_run_quick(from, sizeof image, bytes,
                                        sizeof bytes, 5, replies, calls,
                                        told, calls, answer, sizeof answer);
    return plug_publisher_run(from, sizeof image, bytes, sizeof bytes, 5,
                              replies, calls, told, calls, answer,
                              sizeof answer);
}

/* An update of so many events in a mode, with its naming pulse. */
static int publish(int quick, size_t all, size_t pulse)
{
    static uint8_t other[PLUG_IMAGE_SIZE];
    size_t calls = 0;
    uint8_t reply = 0;
    uint8_t told[2000];
    memset(bytes, 0xA5, sizeof bytes);
    memcpy(other, image, sizeof other);
    CHECK(publisher_start(quick) == PLUG_ACCEPTED);
    CHECK(answer[0] == PLUG_NO_EVENT);
    do {
        replies[calls] = reply;
        CHECK(plug_publisher_call(publisher, sizeof publisher, reply,
                                  answer, sizeof answer)
              == PLUG_ACCEPTED);
        events[calls++] = answer[0];
        if (answer[0] != PLUG_NO_EVENT)
            CHECK(plug_chip_events(chip, sizeof chip, answer, 1, image,
                                   sizeof image, &reply, 1)
                  == PLUG_ACCEPTED);
    } while (answer[0] != PLUG_NO_EVENT);
    CHECK(calls == all + 1 && answer[1] == 1 && answer[2] == 2);
    CHECK(events[pulse - 1] == PLUG_EVENT_PULSE);
    CHECK(memcmp(image + 32 * 2, bytes, sizeof bytes) == 0);
    CHECK(publisher_run(quick, other, calls, told) == PLUG_ACCEPTED);
    CHECK(memcmp(told, events, calls) == 0);
    CHECK(answer[1] == 1 && answer[2] == 2);
    return 0;
}

/* The same update in both modes leaves the same image. */
static int publish_twice(void)
{
    static uint8_t before[PLUG_IMAGE_SIZE];
    static uint8_t after[PLUG_IMAGE_SIZE];
    memcpy(before, image, sizeof before);
    if (publish(1, 678, 669))
        return 1;
    memcpy(after, image, sizeof after);
    memcpy(image, before, sizeof image);
    if (publish(0, 1222, 1213))
        return 1;
    CHECK(memcmp(image, after, sizeof image) == 0);
    return 0;
}

static int sheets(void)
{
    static uint8_t other[PLUG_IMAGE_SIZE];
    const char *expected = "pages 64\n1 final 2 hops 1\n5 final 2 hops 2\n"
                           "7 outside 200\nredirected 3 free 59\n";
    uint8_t read_number[PLUG_NUMBER_SIZE];
    size_t length;
    CHECK(plug_sheet_write(number, sizeof number, image, sizeof image, sheet,
                           sizeof sheet) == PLUG_ACCEPTED);
    CHECK(plug_sheet_read(sheet, sizeof sheet, read_number,
                          sizeof read_number, other, sizeof other)
          == PLUG_ACCEPTED);
    CHECK(memcmp(read_number, number, sizeof number) == 0);
    CHECK(memcmp(other, image, sizeof image) == 0);
    CHECK(plug_list(sheet, sizeof sheet, text, sizeof text, answer,
                    sizeof answer) == PLUG_ACCEPTED);
    length = answer[1] + 256u * answer[2];
    CHECK(length == strlen(expected));
    CHECK(memcmp(text, expected, length) == 0);
    sheet[0] = 63;
    CHECK(plug_list(sheet, sizeof sheet, text, sizeof text, answer,
                    sizeof answer) == PLUG_REFUSED_SHEET);
    return 0;
}

/* The tenths in an answer. */
static int tenths(void)
{
    int x = answer[1] + 256 * answer[2];
    return x < 0x8000 ? x : x - 0x10000;
}

/* A header of two rows and three columns on page 1, from 60.0 degrees south
   on, rows of 2.5 degrees; page 6 is superseded by page 63. */
static int the_variation(void)
{
    const uint8_t header[12] = {2, 0, 3, 0, 0xA8, 0xFD, 25, 0, 0, 0, 6, 5};
    const uint8_t first[6] = {0xF8, 0xF8, 0x07, 0x07, 0xFF, 0x7F};
    const uint8_t second[6] = {0xFF, 0xFF, 0x2C, 0x01, 0x08, 0x07};
    memset(image, 0xFF, sizeof image);
    memcpy(image + 32, header, sizeof header);
    image[PLUG_STATUS_OFFSET + PLUG_REDIRECTION + 6] = 255 - 63;
    memcpy(image + 32 * 63, first, sizeof first);
    memcpy(image + 32 * 5, second, sizeof second);
    CHECK(plug_variation(image, sizeof image, -600, 0, answer, sizeof answer)
          == PLUG_ACCEPTED);
    CHECK(answer[0] == PLUG_NO_EVENT && tenths() == -1800);
    CHECK(plug_variation(image, sizeof image, -576, 1, answer, sizeof answer)
          == PLUG_ACCEPTED);
    CHECK(tenths() == 1799);
    CHECK(plug_variation(image, sizeof image, -575, 0, answer, sizeof answer)
          == PLUG_ACCEPTED);
    CHECK(tenths() == -1);
    CHECK(plug_variation(image, sizeof image, -576, 2, answer, sizeof answer)
          == PLUG_REFUSED_NO_VALUE);
    CHECK(plug_variation(image, sizeof image, -551, 2, answer, sizeof answer)
          == PLUG_REFUSED_NO_VALUE);
    CHECK(plug_variation(image, sizeof image, -551, 3, answer, sizeof answer)
          == PLUG_REFUSED_COLUMN);
    CHECK(plug_variation(image, sizeof image, -550, UINT32_MAX, answer,
                         sizeof answer) == PLUG_REFUSED_LATITUDE);
    CHECK(plug_variation(image, sizeof image, INT32_MIN, 0, answer,
                         sizeof answer) == PLUG_REFUSED_LATITUDE);
    CHECK(plug_sheet_write(number, sizeof number, image, sizeof image, sheet,
                           sizeof sheet) == PLUG_ACCEPTED);
    CHECK(plug_sheet_variation(sheet, sizeof sheet, -551, 1, answer,
                               sizeof answer) == PLUG_ACCEPTED);
    CHECK(answer[0] == PLUG_NO_EVENT && tenths() == 300);
    sheet[0] = 63;
    CHECK(plug_sheet_variation(sheet, sizeof sheet, -551, 1, answer,
                               sizeof answer) == PLUG_REFUSED_SHEET);
    image[PLUG_STATUS_OFFSET + PLUG_REDIRECTION + 63] = 255 - 200;
    CHECK(plug_variation(image, sizeof image, -600, 0, answer, sizeof answer)
          == PLUG_REFUSED_OUTSIDE);
    CHECK(answer[0] == PLUG_NO_EVENT && answer[1] == 200);
    image[PLUG_STATUS_OFFSET + PLUG_REDIRECTION + 63] = 255 - 6;
    CHECK(plug_variation(image, sizeof image, -600, 0, answer, sizeof answer)
          == PLUG_REFUSED_LOOP);
    image[32 + 31] = 0;
    CHECK(plug_variation(image, sizeof image, -600, 0, answer, sizeof answer)
          == PLUG_REFUSED_HEADER);
    CHECK(plug_change(1799, -1800, answer, sizeof answer)
          == PLUG_ACCEPTED);
    CHECK(answer[0] == PLUG_NO_EVENT && tenths() == 1);
    CHECK(plug_change(-900, 900, answer, sizeof answer) == PLUG_ACCEPTED);
    CHECK(tenths() == -1800);
    CHECK(plug_change(0, 0x7FFF, answer, sizeof answer)
          == PLUG_REFUSED_NO_VALUE);
    CHECK(plug_change(INT32_MIN, 0, answer, sizeof answer)
          == PLUG_REFUSED_NO_VALUE);
    return 0;
}

/* A null pointer is allowed with length 0, and is judged by its length. */
static int nothing(void)
{
    CHECK(plug_chip_run(NULL, 0, NULL, 0, NULL, 0, NULL, 0) == 1);
    CHECK(plug_chip_run(NULL, 0, NULL, 0, image, sizeof image, NULL, 0)
          == 10);
    CHECK(plug_chip_run(number, 8, NULL, 0, image, sizeof image, NULL, 0)
          == 0);
    CHECK(plug_chip_power_up(NULL, 0, NULL, 0) == 10);
    CHECK(plug_chip_events(NULL, 0, NULL, 0, NULL, 0, NULL, 0) == 1);
    CHECK(plug_chip_events(NULL, 0, NULL, 0, image, sizeof image, NULL, 0)
          == 2);
    CHECK(plug_chip_events(chip, sizeof chip, NULL, 0, image, sizeof image,
                           NULL, 0) == 0);
    CHECK(plug_walk(NULL, 0, 0, NULL, 0) == 1);
    CHECK(plug_walk(image, sizeof image, 0, NULL, 0) == 10);
    CHECK(plug_page(NULL, 0, 0, NULL, 0) == 1);
    CHECK(plug_page(image, sizeof image, 0, NULL, 0) == 10);
    CHECK(plug_free_page(NULL, 0, 0, NULL, 0) == 1);
    CHECK(plug_free_page(image, sizeof image, 0, NULL, 0) == 10);
    CHECK(plug_update(NULL, 0, NULL, 0, NULL, 0, 0, 0, NULL, 0) == 1);
    CHECK(plug_update(image, sizeof image, number, 8, NULL, 0, 0, 0, answer,
                      sizeof answer) == 10);
    CHECK(plug_update_quick(NULL, 0, NULL, 0, NULL, 0, 0, 0, NULL, 0) == 1);
    CHECK(plug_update_quick(image, sizeof image, number, 8, NULL, 0, 0, 0,
                            answer, sizeof answer) == 10);
    CHECK(plug_number_run(NULL, 0, NULL, 0, NULL, 0) == 10);
    CHECK(plug_number_run(NULL, 0, NULL, 0, answer, sizeof answer) == 0);
    CHECK(answer[0] == PLUG_EVENT_RESET);
    CHECK(plug_number_start(NULL, 0) == 10);
    CHECK(plug_number_call(NULL, 0, 0, NULL, 0) == 2);
    CHECK(plug_number_call(reader, sizeof reader, 0, NULL, 0) == 10);
    CHECK(plug_page_run(0, NULL, 0, NULL, 0, NULL, 0, NULL, 0) == 10);
    CHECK(plug_page_run(0, NULL, 0, NULL, 0, NULL, 0, answer, sizeof answer)
          == 10);
    CHECK(plug_page_start(0, NULL, 0) == 10);
    CHECK(plug_page_call(NULL, 0, 0, NULL, 0, NULL, 0) == 2);
    CHECK(plug_page_call(page_reader, sizeof page_reader, 0, NULL, 0, answer,
                         sizeof answer) == 10);
    CHECK(plug_publisher_run(NULL, 0, NULL, 0, 0, NULL, 0, NULL, 0, NULL, 0)
          == 1);
    CHECK(plug_publisher_run(image, sizeof image, NULL, 0, 0, NULL, 0, NULL,
                             0, NULL, 0) == 10);
    CHECK(plug_publisher_run_quick(NULL, 0, NULL, 0, 0, NULL, 0, NULL, 0,
                                   NULL, 0) == 1);
    CHECK(plug_publisher_run_quick(image, sizeof image, NULL, 0, 0, NULL, 0,
                                   NULL, 0, NULL, 0) == 10);
    CHECK(plug_publisher_start(NULL, 0, NULL, 0, 0, NULL, 0, NULL, 0) == 1);
    CHECK(plug_publisher_start(image, sizeof image, NULL, 0, 0, publisher,
                               sizeof publisher, answer, sizeof answer)
          == 10);
    CHECK(plug_publisher_start_quick(NULL, 0, NULL, 0, 0, NULL, 0, NULL, 0)
          == 1);
    CHECK(plug_publisher_start_quick(image, sizeof image, NULL, 0, 0,
                                     publisher, sizeof publisher, answer,
                                     sizeof answer) == 10);
    CHECK(plug_publisher_call(NULL, 0, 0, NULL, 0) == 2);
    CHECK(plug_sheet_write(NULL, 0, NULL, 0, NULL, 0) == 1);
    CHECK(plug_sheet_read(NULL, 0, NULL, 0, NULL, 0) == 1);
    CHECK(plug_sheet_read(NULL, 0, number, 8, image, sizeof image) == 12);
    CHECK(plug_list(NULL, 0, NULL, 0, NULL, 0) == 10);
    CHECK(plug_list(NULL, 0, text, sizeof text, answer, sizeof answer)
          == 12);
    CHECK(plug_variation(NULL, 0, 0, 0, NULL, 0) == 1);
    CHECK(plug_variation(image, sizeof image, 0, 0, NULL, 0) == 10);
    CHECK(plug_sheet_variation(NULL, 0, 0, 0, NULL, 0) == 10);
    CHECK(plug_sheet_variation(NULL, 0, 0, 0, answer, sizeof answer) == 12);
    CHECK(plug_change(0, 0, NULL, 0) == 10);
    return 0;
}

/* Numbers that no byte holds; cut down to one they would be page 0 or 5, or
   the replies 0 and 1. */
static int past_a_byte(void)
{
    const uint32_t numbers[5] = {256, 257, 256 + 5, 0x10001, UINT32_MAX};
    uint8_t told[2];
    unsigned i;
    memset(image, 0xFF, sizeof image);
    memset(replies, 0, 2);
    CHECK(plug_number_start(reader, sizeof reader) == PLUG_ACCEPTED);
    CHECK(plug_page_start(5, page_reader, sizeof page_reader)
          == PLUG_ACCEPTED);
    CHECK(publisher_start(0) == PLUG_ACCEPTED);
    for (i = 0; i < 5; i++) {
        const uint32_t n = numbers[i];
        CHECK(plug_walk(image, sizeof image, n, answer, sizeof answer) == 3);
        CHECK(plug_page(image, sizeof image, n, page, sizeof page) == 3);
        CHECK(plug_free_page(image, sizeof image, n, answer, sizeof answer)
              == 3);
        CHECK(plug_update(image, sizeof image, number, sizeof number, bytes,
                          sizeof bytes, n, 1222, answer, sizeof answer) == 3);
        CHECK(plug_update_quick(image, sizeof image, number, sizeof number,
                                bytes, sizeof bytes, n, 678, answer,
                                sizeof answer) == 3);
        CHECK(plug_page_run(n, replies, 2, told, 2, page, sizeof page, answer,
                            sizeof answer) == 3);
        CHECK(plug_page_start(n, chip, 48 - 24) == 10);
        CHECK(plug_page_start(n, page_reader, sizeof page_reader) == 3);
        CHECK(plug_publisher_run(image, sizeof image, bytes, sizeof bytes, n,
                                 replies, 2, told, 2, answer, sizeof answer)
              == 3);
        CHECK(plug_publisher_run_quick(image, sizeof image, bytes,
                                       sizeof bytes, n, replies, 2, told, 2,
                                       answer, sizeof answer) == 3);
        CHECK(plug_publisher_start(image, sizeof image, bytes, sizeof bytes,
                                   n, publisher, sizeof publisher, answer,
                                   sizeof answer) == 3);
        CHECK(plug_publisher_start_quick(image, sizeof image, bytes,
                                         sizeof bytes, n, publisher,
                                         sizeof publisher, answer,
                                         sizeof answer) == 3);
        CHECK(plug_number_call(reader, sizeof reader, n, answer,
                               sizeof answer) == 2);
        CHECK(plug_page_call(page_reader, sizeof page_reader, n, page,
                             sizeof page, answer, sizeof answer) == 2);
        CHECK(plug_publisher_call(publisher, sizeof publisher, n, answer,
                                  sizeof answer) == 2);
    }
    return 0;
}

int main(void)
{
    if (crcs() || on_an_image() || number_read() || page_read()
        || publish_twice() || sheets() || the_variation() || nothing()
        || past_a_byte())
        return 1;
    puts("all 27 functions");
    return 0;
}
