/*
 * The plug in C: its DS2505 driven by bus events, masters that read its number
 * or a page, a publisher that supersedes a page, stored sheets and their list,
 * the variation at a latitude and a column.
 *
 * docs/C-INTERFACE.md says how to build and link the library, what each byte
 * of a packed state means, and what is promised to a caller.
 *
 * Buffers. Every buffer is a pointer and, right after it, its length in bytes.
 * A pointer to const is only read. What the caller owes in every call:
 *   - the pointer leads to as many bytes as the length says, all of them
 *     readable, and those behind a pointer that is not const writable;
 *   - a null pointer is allowed only with length 0;
 *   - no buffer that is not const overlaps another buffer of the same call;
 *   - nothing else reads or writes the buffers until the call returns.
 * Nothing else is owed: every other input is judged by the function.
 *
 * Codes. Every function but the two CRCs returns a code: 0, or the number of a
 * refusal. Each comment lists the codes in the order in which they are judged:
 * the first that applies is returned. In every function 1 comes before 2, 2
 * before 10, and these before all others. A length that is wrong where the
 * comment names one draws the code that is listed for it.
 *
 * A refusal leaves every buffer as it was, with these exceptions:
 *   - 5, 9 and 20 put 0xFF and their value into the answer, where the function
 *     has one;
 *   - 4, 5, 6, 7, 13, 14 and 15 told by a master's call stop the master: its
 *     state is then the stopped one, which tells the same again when called
 *     again;
 *   - a run of a master returns what its last call told, so a code told by a
 *     call comes with the events of the calls before it written (and the page,
 *     where an earlier call told Final).
 *
 * Numbers. A page, a reply that stands alone, a count of events and a column
 * are a uint32_t each, and every value is judged: a page of 256 is refused with
 * 3 as 64 is, a reply of 256 with 2 as 2 is. Nothing is cut down to a byte.
 *
 * Events, a byte each: see PLUG_EVENT_ below. Replies, a byte each in a buffer:
 * 0 or 1, the state of the line.
 *
 * Answers. A buffer for an answer has 16 bytes. Its first byte is an event, or
 * 0xFF where no event is told; the values named in the comment follow from the
 * second byte on. All other bytes of the buffer stay as they were.
 *
 * Tenths. A latitude, a value of the variation and the change between two are
 * signed tenths of a degree. Those that a function is given are an int32_t. In
 * an answer there are two bytes, the low one first, two's complement: with
 * x = answer[1] + 256 * answer[2] the number is x while x is below 0x8000, and
 * x - 0x10000 from there on.
 *
 * Modes. The ordinary mode writes with 0Fh and 55h, and each byte's CRC is
 * compared before its pulse. The quick mode, the data sheet's speed-programming
 * mode, writes with F3h and F5h, which send no CRC. The chip knows all four
 * commands. An update or a publisher in the quick mode has _quick at the end of
 * its function's name; what the mode asks of the contact is said there.
 *
 * The image of a chip is 2,368 bytes: 2,048 of data (64 pages of 32), then 320
 * of status, addresses 000h to 13Fh. A registration number is 8 bytes, the
 * family code first. A page number is 0 to 63.
 */
#ifndef PLUG_H
#define PLUG_H

#include <stddef.h>
#include <stdint.h>

#ifdef __cplusplus
extern "C" {
#endif

/* ---- lengths of buffers ------------------------------------------------- */

#define PLUG_IMAGE_SIZE 2368
#define PLUG_SHEET_SIZE 2392
#define PLUG_NUMBER_SIZE 8
#define PLUG_PAGE_SIZE 32
#define PLUG_CHIP_STATE_SIZE 24
#define PLUG_NUMBER_STATE_SIZE 24
#define PLUG_PAGE_STATE_SIZE 48
#define PLUG_PUBLISHER_STATE_SIZE 48
#define PLUG_ANSWER_SIZE 16
/* room that is enough for every list; a buffer for one may be longer */
#define PLUG_LIST_TEXT_SIZE 1576

/* ---- places in an image ------------------------------------------------- */

#define PLUG_PAGE_COUNT 64
/* the status byte of address a is at PLUG_STATUS_OFFSET + a */
#define PLUG_STATUS_OFFSET 2048
/* status addresses: three fields of 8 bytes, and 64 redirection bytes */
#define PLUG_DATA_PROTECTION 0x000
#define PLUG_REDIRECTION_PROTECTION 0x020
#define PLUG_USED_PAGES 0x040
#define PLUG_REDIRECTION 0x100

/* ---- events ------------------------------------------------------------- */

/* a slot with the master's bit 0 */
#define PLUG_EVENT_SLOT_0 0
/* a slot with the master's bit 1, which is a read slot */
#define PLUG_EVENT_SLOT_1 1
#define PLUG_EVENT_RESET 2
/* a program pulse */
#define PLUG_EVENT_PULSE 3
#define PLUG_EVENT_POWER_LOSS 4
/* in the place of an event, where none is told */
#define PLUG_NO_EVENT 0xFF

/* ---- codes -------------------------------------------------------------- */

#define PLUG_ACCEPTED 0
/* the image isn't 2,368 bytes */
#define PLUG_REFUSED_IMAGE_LENGTH 1
/* a state isn't one, or has a field outside its range; a byte given as an
   event isn't 0 to 4; a byte or a number given as a reply isn't 0 or 1 */
#define PLUG_REFUSED_STATE_RANGE 2
/* page above 63, up to 0xFFFFFFFF */
#define PLUG_REFUSED_PAGE_NUMBER 3
/* the chain of redirection bytes never ends */
#define PLUG_REFUSED_LOOP 4
/* the chain leads to a number above 63; the value is that number */
#define PLUG_REFUSED_OUTSIDE 5
/* a received CRC-16 differs */
#define PLUG_REFUSED_CRC16 6
/* a byte read back differs */
#define PLUG_REFUSED_READ_BACK 7
/* no free page other than the final one */
#define PLUG_REFUSED_NO_FREE_PAGE 8
/* the final page's redirection byte is protected; the value is that page */
#define PLUG_REFUSED_REDIRECTION_PROTECTED 9
/* a buffer other than an image has the wrong length */
#define PLUG_REFUSED_BUFFER_LENGTH 10
/* the stored sheet is faulty */
#define PLUG_REFUSED_SHEET 12
/* a reset drew the reply 1 */
#define PLUG_REFUSED_NO_PRESENCE 13
/* the CRC-8 of a registration number is wrong */
#define PLUG_REFUSED_CRC8 14
/* the family of a registration number isn't 0Bh */
#define PLUG_REFUSED_FAMILY 15
/* the header of the rows is faulty */
#define PLUG_REFUSED_HEADER 16
/* the latitude is below the first row, or at or past the last row's upper
   edge */
#define PLUG_REFUSED_LATITUDE 17
/* the rows have no such column */
#define PLUG_REFUSED_COLUMN 18
/* a value is 7FFFh, which means that there is none, or isn't -1800 to 1799 */
#define PLUG_REFUSED_NO_VALUE 19
/* the final page's data are protected, so that it is not superseded; the value
   is that page */
#define PLUG_REFUSED_DATA_PROTECTED 20

/* ---- CRCs --------------------------------------------------------------- */

/* The CRC-8 register after the bytes, from the register given (0 when
   cleared). Any length. Judges nothing. */
uint8_t plug_crc8(uint8_t crc, const uint8_t *bytes, size_t bytes_size);

/* The CRC-16 register after the bytes, from the register given (0 when
   cleared). On the bus it is sent with every bit turned over, low byte first.
   Any length. Judges nothing. */
uint16_t plug_crc16(uint16_t crc, const uint8_t *bytes, size_t bytes_size);

/* ---- the chip ----------------------------------------------------------- */

/* Sends all events to a chip with this number and image, from power-up on. The
   image becomes what the events leave; replies[i] is the reply to events[i].
     number   8 bytes
     events   any length
     image    2,368 bytes
     replies  as many bytes as events
   Codes: 1, 2 for a byte that is no event, 10 for the number, 10 for the
   replies. */
uint32_t plug_chip_run(const uint8_t *number, size_t number_size,
                       const uint8_t *events, size_t events_size,
                       uint8_t *image, size_t image_size,
                       uint8_t *replies, size_t replies_size);

/* The state of a chip with this number at power-up: silent until a reset.
     number   8 bytes
     state    24 bytes
   Codes: 10 for the number, 10 for the state. */
uint32_t plug_chip_power_up(const uint8_t *number, size_t number_size,
                            uint8_t *state, size_t state_size);

/* Sends some events to the chip with this state and image. Both become what
   the events leave; replies[i] is the reply to events[i].
     state    24 bytes, from plug_chip_power_up or an earlier call
     events   any length, none and one included
     image    2,368 bytes
     replies  as many bytes as events
   Codes: 1, 2 for the state (another length too), 2 for a byte that is no
   event, 10 for the replies. */
uint32_t plug_chip_events(uint8_t *state, size_t state_size,
                          const uint8_t *events, size_t events_size,
                          uint8_t *image, size_t image_size,
                          uint8_t *replies, size_t replies_size);

/* ---- an image ----------------------------------------------------------- */

/* How the walk along redirection bytes from a page ends. With code 0 the
   answer is 0xFF, the final page, the hops; with 5 it is 0xFF and the number
   above 63.
     image    2,368 bytes
     answer   16 bytes
   Codes: 1, 10 for the answer, 3, 4, 5. */
uint32_t plug_walk(const uint8_t *image, size_t image_size, uint32_t page,
                   uint8_t *answer, size_t answer_size);

/* A page's own 32 bytes, redirection not followed.
     image    2,368 bytes
     buffer   32 bytes
   Codes: 1, 10 for the buffer, 3. */
uint32_t plug_page(const uint8_t *image, size_t image_size, uint32_t page,
                   uint8_t *buffer, size_t buffer_size);

/* The lowest free page other than the one given. With code 0 the answer is
   0xFF and that page.
     image    2,368 bytes
     answer   16 bytes
   Codes: 1, 10 for the answer, 3 for the page given, 8. */
uint32_t plug_free_page(const uint8_t *image, size_t image_size,
                        uint32_t other, uint8_t *answer, size_t answer_size);

/* A whole update: a publisher joined to a chip with this number and image, cut
   after so many events (0 to 1,221), or whole (1,222 or more, up to 0xFFFFFFFF,
   which is no slower). The image becomes what the events leave; the page reads
   as before while events is at most 1,212, and as new_page from
   1,213 on. With code 0, cut or not, the answer is 0xFF, L (the final page of
   the page given) and T (the page that takes the new bytes); with 5 it is 0xFF
   and the number above 63, with 20 and with 9 it is 0xFF and L.
     image    2,368 bytes
     number   8 bytes, any values
     new_page 32 bytes
     answer   16 bytes
   Codes: 1, 10 for the answer, 10 for the number, 10 for new_page, 3, 4, 5, 20,
   9, 8. */
uint32_t plug_update(uint8_t *image, size_t image_size,
                     const uint8_t *number, size_t number_size,
                     const uint8_t *new_page, size_t new_page_size,
                     uint32_t page, uint32_t events,
                     uint8_t *answer, size_t answer_size);

/* As plug_update, in the quick mode: cut after so many events (0 to 677), or
   whole (678 or more, up to 0xFFFFFFFF, which is no slower); the page reads as
   before while events is at most 668, and as new_page from 669 on. The image of
   a whole update, the answer, the buffers and the codes are those of
   plug_update. On a real bus for a firm contact only: nothing is checked
   before a pulse. */
uint32_t plug_update_quick(uint8_t *image, size_t image_size,
                           const uint8_t *number, size_t number_size,
                           const uint8_t *new_page, size_t new_page_size,
                           uint32_t page, uint32_t events,
                           uint8_t *answer, size_t answer_size);

/* ---- the number read ---------------------------------------------------- */

/* Starts a read and calls it once for each reply. events[i] is the event that
   call i told, or 0xFF where it told none; the code and the answer are those
   of the last call, as in plug_number_call. The first reply is not looked
   at. With no reply at all the code is 0 and the answer the reset to come.
     replies  any length
     events   as many bytes as replies
     answer   16 bytes
   Codes: 2 for a byte that is no reply, 10 for the answer, 10 for the events;
   then, told by the last call, 13, 14, 15. */
uint32_t plug_number_run(const uint8_t *replies, size_t replies_size,
                         uint8_t *events, size_t events_size,
                         uint8_t *answer, size_t answer_size);

/* The state of a read before its first call.
     state    24 bytes
   Codes: 10. */
uint32_t plug_number_start(uint8_t *state, size_t state_size);

/* One call, with the reply that the event told last has drawn (in the first
   call any reply). With code 0 the answer is the next event, or, at the end,
   0xFF and the number's eight bytes; asked again after the end it tells the
   same.
     state    24 bytes, from plug_number_start or an earlier call
     answer   16 bytes
   Codes: 2 for the reply, 2 for the state (another length too), 10 for the
   answer; then 13, 14, 15, each with the stopped state. */
uint32_t plug_number_call(uint8_t *state, size_t state_size, uint32_t reply,
                          uint8_t *answer, size_t answer_size);

/* ---- the page read ------------------------------------------------------ */

/* Starts a read of a page and calls it once for each reply. events[i] is the
   event that call i told, or 0xFF where it told none; the code and the answer
   are those of the last call, as in plug_page_call. The buffer gets the
   page's bytes if one of the calls told Final. With no reply at all the code is
   0 and the answer the reset to come.
     replies  any length
     events   as many bytes as replies
     buffer   32 bytes
     answer   16 bytes
   Codes: 2 for a byte that is no reply, 10 for the answer, 10 for the events,
   10 for the buffer, 3; then, told by the last call, 13, 6, 4, 5. */
uint32_t plug_page_run(uint32_t page,
                       const uint8_t *replies, size_t replies_size,
                       uint8_t *events, size_t events_size,
                       uint8_t *buffer, size_t buffer_size,
                       uint8_t *answer, size_t answer_size);

/* The state of a read of a page before its first call.
     state    48 bytes
   Codes: 10, 3. */
uint32_t plug_page_start(uint32_t page, uint8_t *state, size_t state_size);

/* One call, with the reply that the event told last has drawn (in the first
   call any reply). With code 0 the answer is the next event, or, at the end,
   0xFF, the final page, the hops. The call that tells this end first writes
   the page's bytes into the buffer; no other call writes it. Asked again after
   the end it tells the same. With 5 the answer is 0xFF and the number above 63.
     state    48 bytes, from plug_page_start or an earlier call
     buffer   32 bytes, in every call
     answer   16 bytes
   Codes: 2 for the reply, 2 for the state (another length too), 10 for the
   answer, 10 for the buffer, all with the state unchanged; then 13, 6, 4, 5,
   each with the stopped state. */
uint32_t plug_page_call(uint8_t *state, size_t state_size, uint32_t reply,
                        uint8_t *buffer, size_t buffer_size,
                        uint8_t *answer, size_t answer_size);

/* ---- the publisher ------------------------------------------------------ */

/* Starts an update of a page and calls it once for each reply. events[i] is
   the event that call i told, or 0xFF where it told none; the code and the
   answer are those of the last call, as in plug_publisher_call. The image is
   only read, at the start. With no reply at all the code is 0 and the answer
   the reset to come.
     image    2,368 bytes
     new_page 32 bytes
     replies  any length
     events   as many bytes as replies
     answer   16 bytes
   Codes: 1, 2 for a byte that is no reply, 10 for the answer, 10 for the
   events, 10 for new_page, 3, 4, 5, 20, 9, 8; then, told by the last call, 13,
   6, 7. */
uint32_t plug_publisher_run(const uint8_t *image, size_t image_size,
                            const uint8_t *new_page, size_t new_page_size,
                            uint32_t page,
                            const uint8_t *replies, size_t replies_size,
                            uint8_t *events, size_t events_size,
                            uint8_t *answer, size_t answer_size);

/* As plug_publisher_run, in the quick mode: 678 events in the place of 1,222.
   For a firm contact only: nothing is checked before a pulse, and a wrong byte
   shows only when it is read back (7).
   Codes: those of plug_publisher_run but never 6; told by the last call, 13,
   7. */
uint32_t plug_publisher_run_quick(const uint8_t *image, size_t image_size,
                                  const uint8_t *new_page, size_t new_page_size,
                                  uint32_t page,
                                  const uint8_t *replies, size_t replies_size,
                                  uint8_t *events, size_t events_size,
                                  uint8_t *answer, size_t answer_size);

/* The state of an update of a page before its first call. The image must be
   the chip's own; later calls are not given it. With code 0 the answer is 0xFF
   alone; with 5 it is 0xFF and the number above 63, with 20 and with 9 it is
   0xFF and the final page.
     image    2,368 bytes
     new_page 32 bytes
     state    48 bytes
     answer   16 bytes
   Codes: 1, 10 for the answer, 10 for the state, 10 for new_page, 3, 4, 5, 20,
   9, 8. */
uint32_t plug_publisher_start(const uint8_t *image, size_t image_size,
                              const uint8_t *new_page, size_t new_page_size,
                              uint32_t page, uint8_t *state, size_t state_size,
                              uint8_t *answer, size_t answer_size);

/* As plug_publisher_start, for an update in the quick mode. For a firm
   contact only: nothing is checked before a pulse, and a wrong byte shows only
   when it is read back (7). The codes are those of plug_publisher_start. */
uint32_t plug_publisher_start_quick(const uint8_t *image, size_t image_size,
                                    const uint8_t *new_page,
                                    size_t new_page_size, uint32_t page,
                                    uint8_t *state, size_t state_size,
                                    uint8_t *answer, size_t answer_size);

/* One call, with the reply that the event told last has drawn (in the first
   call any reply). The mode is that of the state. With code 0 the answer is the
   next event, or, at the end, 0xFF, L, T; asked again after the end it tells
   the same.
     state    48 bytes, from plug_publisher_start, its quick namesake or an
              earlier call
     answer   16 bytes
   Codes: 2 for the reply, 2 for the state (another length too), 10 for the
   answer; then 13, 6 (in the ordinary mode only), 7, each with the stopped
   state. */
uint32_t plug_publisher_call(uint8_t *state, size_t state_size, uint32_t reply,
                             uint8_t *answer, size_t answer_size);

/* ---- stored sheets ------------------------------------------------------ */

/* The sheet of a number and an image.
     number   8 bytes
     image    2,368 bytes
     sheet    2,392 bytes
   Codes: 1, 10 for the number, 10 for the sheet, 12 for an image that has a
   gap in its status with anything but FFh. */
uint32_t plug_sheet_write(const uint8_t *number, size_t number_size,
                          const uint8_t *image, size_t image_size,
                          uint8_t *sheet, size_t sheet_size);

/* The number and the image of a sheet.
     sheet    2,392 bytes
     number   8 bytes
     image    2,368 bytes
   Codes: 1 for the image, 10 for the number, 12 (for another length of the
   sheet too). */
uint32_t plug_sheet_read(const uint8_t *sheet, size_t sheet_size,
                         uint8_t *number, size_t number_size,
                         uint8_t *image, size_t image_size);

/* The list of a sheet, as text with a line feed after each line and no byte 0
   at its end. With code 0 the answer is 0xFF and the text's length, low byte
   first; what is in the buffer after the text stays as it was.
     sheet    2,392 bytes
     text     1,576 bytes or more
     answer   16 bytes
   Codes: 10 for the answer, 10 for the text, 12. */
uint32_t plug_list(const uint8_t *sheet, size_t sheet_size,
                   uint8_t *text, size_t text_size,
                   uint8_t *answer, size_t answer_size);

/* ---- the variation ------------------------------------------------------ */

/* The final page of page 1's chain is the header of the rows; each number of
   two bytes has its low byte first:
     0, 1     the count of rows, 1 to 15
     2, 3     the count of columns, 1 to 16
     4, 5     the southern edge in tenths of a degree, signed
     6, 7     the height of a row in tenths of a degree, 1 to 65,535
     8, 9     0
     10 on    for each row the number of its page, 0 to 63
     then     0xFF to the end of the page
   Rows and columns count from 0. Row i covers the latitudes from i heights
   above the southern edge on, up to but not including i + 1 heights above it.
   The final page of the chain of a row's page begins with a value for each
   column: two bytes, low byte first, signed tenths of a degree from -1800 to
   1799, or 0x7FFF for none. */

/* The variation at a latitude and a column. With code 0 the answer is 0xFF and
   the value, low byte, high byte; with 5 it is 0xFF and the number above 63.
     image    2,368 bytes
     latitude any number, in tenths of a degree
     column   any number
     answer   16 bytes
   Codes: 1, 10 for the answer, 4 or 5 for page 1, 16, 17, 18, 4 or 5 for the
   row's page, 19. */
uint32_t plug_variation(const uint8_t *image, size_t image_size,
                        int32_t latitude, uint32_t column,
                        uint8_t *answer, size_t answer_size);

/* As plug_variation, on the image of a stored sheet.
     sheet    2,392 bytes
     latitude any number, in tenths of a degree
     column   any number
     answer   16 bytes
   Codes: 10 for the answer, 12 (for another length of the sheet too), 4 or 5
   for page 1, 16, 17, 18, 4 or 5 for the row's page, 19. */
uint32_t plug_sheet_variation(const uint8_t *sheet, size_t sheet_size,
                              int32_t latitude, uint32_t column,
                              uint8_t *answer, size_t answer_size);

/* The year's change between two values: new_value less old_value, brought into
   -1800 to 1799 by 3600. With code 0 the answer is 0xFF and the change, low
   byte, high byte.
     old_value, new_value
              any numbers, in tenths of a degree
     answer   16 bytes
   Codes: 10 for the answer, 19 for either value. */
uint32_t plug_change(int32_t old_value, int32_t new_value,
                     uint8_t *answer, size_t answer_size);

#ifdef __cplusplus
}
#endif

#endif
