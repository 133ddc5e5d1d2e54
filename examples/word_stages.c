/*
 * A figure of one word of 46 cells through both writings, as SVG on standard
 * output: first data, filled, second bits, read back.
 *
 * Only the value and the record stand here; every cell drawn is taken from a
 * page that the library wrote, and every bit read back from the record that it
 * read. Exit status 1, and nothing printed, when a call is refused or the
 * stages do not agree.
 *
 * Build it at the repository's root, after make archive:
 *
 *     gcc -std=c99 -Wall -Wextra -Werror -pedantic -O2 -I include \
 *         -o word_stages examples/word_stages.c target/staticlib/libwom.a
 */
#include <inttypes.h>
#include <stdint.h>
#include <stdio.h>
#include <string.h>

#include "wom.h"

/* Its set cells are 2, 4, 7, 11, 16, 22, 29 and 37: between them lie 1, 2, 3 up
 * to 7 cells that are not set, and 8 after the last. */
#define VALUE 1687086047u

/* More bits than any word takes. */
static const uint8_t record[] = {'l', 'i', 'f', 't'};

/* ---- The stages -------------------------------------------------------- */

struct stages {
    uint64_t first;              /* word 0 after the first writing */
    uint64_t filled;             /* filled */
    uint64_t second;             /* after the second writing */
    unsigned capacity;           /* how many bits of the record it takes */
    uint8_t read[sizeof record]; /* the record read back */
};

static int is_set(uint64_t word, int cell)
{
    return (int)(word >> (WOM_WORD_CELLS - 1 - cell) & 1);
}

/* A data cell is the cell right after a separator. */
static int is_data(const struct stages *stages, int cell)
{
    return cell > 0 && is_set(stages->filled, cell - 1);
}

/* The bit with that number of some bytes, the highest of a byte first. */
static int bit(const uint8_t *bytes, unsigned number)
{
    return bytes[number / 8] >> (7 - number % 8) & 1;
}

/* Word 0 of a page. */
static uint64_t word_0(const uint8_t *page)
{
    uint64_t word = 0;
    unsigned c;

    for (c = 0; c < WOM_WORD_CELLS; c++)
        word = word << 1 | (uint64_t)bit(page + WOM_HEADER_BYTES, c);
    return word;
}

static int accepted(uint64_t answer)
{
    return wom_refusal(answer) == 0;
}

/* The first-round page whose word 0 has the value; the others have 0. */
static int write_first(uint8_t *page)
{
    const uint8_t data[WOM_FIRST_BYTES] = {
        VALUE >> 24, VALUE >> 16 & 0xff, VALUE >> 8 & 0xff, VALUE & 0xff};

    memset(page, 0, WOM_PAGE_BYTES);
    return accepted(wom_write_first(page, WOM_PAGE_BYTES, data, sizeof data));
}

static int take_first(struct stages *stages, const uint8_t *page)
{
    uint64_t value;
    uint64_t capacity;

    stages->first = word_0(page);
    value = wom_decode_word(stages->first);
    capacity = wom_word_capacity(stages->first);
    if (!accepted(value) || !accepted(capacity))
        return 0;
    stages->capacity = (unsigned)wom_result(capacity);
    return wom_result(value) == VALUE;
}

/* Fills the page; its word 0 is then the word's own fill. */
static int take_filled(struct stages *stages, uint8_t *page)
{
    uint64_t filled = wom_fill_word(stages->first);

    if (!accepted(filled) || !accepted(wom_fill_page(page, WOM_PAGE_BYTES)))
        return 0;
    stages->filled = word_0(page);
    return wom_filled_word(filled) == stages->filled;
}

static int take_second(struct stages *stages, uint8_t *page)
{
    uint64_t length;

    if (!accepted(wom_write_second(page, WOM_PAGE_BYTES, record,
                                   sizeof record)))
        return 0;
    stages->second = word_0(page);
    length = wom_read_second(page, WOM_PAGE_BYTES, stages->read,
                             sizeof stages->read);
    return accepted(length) && wom_result(length) == sizeof record;
}

/* No cell is cleared from stage to stage, and the second writing sets none but
 * data cells. */
static int cells_agree(const struct stages *stages)
{
    return (stages->first & ~stages->filled) == 0 &&
           (stages->filled & ~stages->second) == 0 &&
           (stages->second & ~stages->filled & ~(stages->filled >> 1)) == 0;
}

/* The data cells, as many as the capacity, hold the record's first bits, and
 * these are read back. */
static int bits_agree(const struct stages *stages)
{
    unsigned taken = 0;
    int agree = 1;
    int c;

    for (c = 0; c < WOM_WORD_CELLS && taken < 8 * sizeof record; c++)
        if (is_data(stages, c)) {
            agree &= is_set(stages->second, c) == bit(record, taken) &&
                     bit(stages->read, taken) == bit(record, taken);
            taken++;
        }
    return agree && taken == stages->capacity && taken < 8 * sizeof record;
}

static int take_stages(struct stages *stages)
{
    uint8_t page[WOM_PAGE_BYTES];

    return write_first(page) && take_first(stages, page) &&
           take_filled(stages, page) && take_second(stages, page) &&
           cells_agree(stages) && bits_agree(stages);
}

/* ---- Boxes ------------------------------------------------------------- */

#define LEFT 156  /* of cell 0 */
#define PITCH 18  /* from cell to cell */
#define BOX 16    /* a box's width */
#define HEIGHT 24 /* a box's height */

enum look { NOT_SET, FIRST, FILL, DATA_0, DATA_1, PALE, PALE_NOT_SET };

struct style {
    const char *fill;
    const char *stroke;
    const char *stroke_width;
    const char *ink;
};

static const struct style styles[] = {
    [NOT_SET] = {"#ffffff", "#9a9a9a", "0.8", "#9a9a9a"},
    [FIRST] = {"#1d2b3a", "#1d2b3a", "0.8", "#ffffff"},
    [FILL] = {"#71869b", "#1d2b3a", "0.8", "#ffffff"},
    [DATA_0] = {"#ffffff", "#000000", "1.8", "#000000"},
    [DATA_1] = {"#e6cf94", "#000000", "1.8", "#000000"},
    [PALE] = {"#eceff2", "#d5d9dd", "0.8", "#a9b0b8"},
    [PALE_NOT_SET] = {"#ffffff", "#e4e4e4", "0.8", "#cccccc"},
};

static int left_of(int cell)
{
    return LEFT + PITCH * cell;
}

/* A box with its mark in the middle. */
static void draw_box(int x, int y, enum look look, char mark)
{
    const struct style *style = &styles[look];

    printf("<rect x=\"%d\" y=\"%d\" width=\"%d\" height=\"%d\" fill=\"%s\" "
           "stroke=\"%s\" stroke-width=\"%s\"/>"
           "<text x=\"%d\" y=\"%d\" fill=\"%s\">%c</text>\n",
           x, y, BOX, HEIGHT, style->fill, style->stroke, style->stroke_width,
           x + BOX / 2, y + 17, style->ink, mark);
}

static void draw_bit(int x, int y, int value)
{
    draw_box(x, y, value ? DATA_1 : DATA_0, value ? '1' : '0');
}

/* A cell in a stage's row, when no data bit has been put in it. */
static void draw_cell(const struct stages *stages, uint64_t word, int cell,
                      int y)
{
    if (is_set(stages->first, cell))
        draw_box(left_of(cell), y, FIRST, 'F');
    else if (is_set(word, cell))
        draw_box(left_of(cell), y, FILL, '+');
    else
        draw_box(left_of(cell), y, NOT_SET, '.');
}

/* ---- Rows -------------------------------------------------------------- */

#define NUMBERS_Y 96
#define ROW_Y 106   /* the first row */
#define ROW_STEP 58 /* from row to row */
#define LEGEND_Y 372

static int row_y(int row)
{
    return ROW_Y + ROW_STEP * (row - 1);
}

static void draw_title(int row, const char *title, const char *detail)
{
    printf("<text x=\"16\" y=\"%d\" font-size=\"14\" font-weight=\"bold\">"
           "%d</text>"
           "<text x=\"32\" y=\"%d\" font-size=\"14\" font-weight=\"bold\">"
           "%s</text>"
           "<text x=\"32\" y=\"%d\" font-size=\"11\">%s</text>\n",
           row_y(row) + 10, row, row_y(row) + 10, title, row_y(row) + 25,
           detail);
}

static void draw_numbers(void)
{
    int c;

    for (c = 0; c < WOM_WORD_CELLS; c += 5)
        printf("<text x=\"%d\" y=\"%d\">%d</text>\n", left_of(c) + BOX / 2,
               NUMBERS_Y, c);
}

static void draw_word(const struct stages *stages, uint64_t word, int row)
{
    int c;

    for (c = 0; c < WOM_WORD_CELLS; c++)
        draw_cell(stages, word, c, row_y(row));
}

/* The second bits, as the cells hold them, among the separators. */
static void draw_second(const struct stages *stages, int row)
{
    int c;

    for (c = 0; c < WOM_WORD_CELLS; c++)
        if (is_data(stages, c))
            draw_bit(left_of(c), row_y(row), is_set(stages->second, c));
        else
            draw_cell(stages, stages->second, c, row_y(row));
}

/* The bits that were read back, each under its data cell. */
static void draw_read(const struct stages *stages, int row)
{
    unsigned taken = 0;
    int c;

    for (c = 0; c < WOM_WORD_CELLS; c++)
        if (is_data(stages, c))
            draw_bit(left_of(c), row_y(row), bit(stages->read, taken++));
        else if (is_set(stages->second, c))
            draw_box(left_of(c), row_y(row), PALE,
                     is_set(stages->first, c) ? 'F' : '+');
        else
            draw_box(left_of(c), row_y(row), PALE_NOT_SET, '.');
}

/* ---- Brackets under the bits of each byte ------------------------------ */

/* The data cell that takes the bit with that number. */
static int cell_of_bit(const struct stages *stages, unsigned number)
{
    unsigned taken = 0;
    int c = 0;

    while (!is_data(stages, c) || taken++ != number)
        c++;
    return c;
}

static void draw_bracket(const struct stages *stages, unsigned byte,
                         unsigned bits)
{
    int left = left_of(cell_of_bit(stages, 8 * byte));
    int right = left_of(cell_of_bit(stages, 8 * byte + bits - 1)) + BOX;
    int y = row_y(4) + HEIGHT + 5;

    printf("<path d=\"M%d %dv6H%dv-6\" fill=\"none\" stroke=\"#000000\"/>"
           "<text x=\"%d\" y=\"%d\">",
           left, y, right, (left + right) / 2, y + 19);
    if (bits == 8)
        printf("byte %u: %02X</text>\n", byte, stages->read[byte]);
    else
        printf("byte %u: first %u bits of %02X</text>\n", byte, bits,
               stages->read[byte]);
}

static void draw_brackets(const struct stages *stages)
{
    unsigned start;

    for (start = 0; start < stages->capacity; start += 8)
        draw_bracket(stages, start / 8,
                     stages->capacity - start < 8 ? stages->capacity - start
                                                  : 8);
}

/* ---- The figure -------------------------------------------------------- */

static void draw_legend_entry(int x, int line, enum look look, char mark,
                              const char *meaning)
{
    int y = LEGEND_Y + 34 * line;

    printf("<g text-anchor=\"middle\" font-family=\"monospace\" "
           "font-size=\"13\" font-weight=\"bold\">");
    draw_box(x, y, look, mark);
    printf("</g><text x=\"%d\" y=\"%d\" font-size=\"12\">%s</text>\n",
           x + BOX + 8, y + 17, meaning);
}

static void draw_legend(void)
{
    draw_legend_entry(156, 0, FIRST, 'F',
                      "set by the first writing; a separator from stage 2 on");
    draw_legend_entry(516, 0, FILL, '+', "set by the fill: a separator");
    draw_legend_entry(736, 0, NOT_SET, '.', "not set");
    draw_legend_entry(156, 1, DATA_0, '0',
                      "data cell, right after a separator, holding 0: not set");
    draw_legend_entry(516, 1, DATA_1, '1', "data cell holding 1: set");
}

static void draw_head(const struct stages *stages)
{
    printf("<svg xmlns=\"http://www.w3.org/2000/svg\" width=\"1000\" "
           "height=\"440\" viewBox=\"0 0 1000 440\" "
           "font-family=\"sans-serif\">\n"
           "<title>One word of 46 cells, written twice</title>\n"
           "<rect width=\"1000\" height=\"440\" fill=\"#ffffff\"/>\n"
           "<text x=\"16\" y=\"30\" font-size=\"18\" font-weight=\"bold\">"
           "One word of 46 cells, written twice without an erase between"
           "</text>\n");
    printf("<text x=\"16\" y=\"54\" font-size=\"13\">"
           "First value %" PRIu32 ". Capacity %u bits. The second record "
           "begins %02X %02X %02X (hexadecimal); its first %u bits go into "
           "this word.</text>\n",
           (uint32_t)VALUE, stages->capacity, record[0], record[1], record[2],
           stages->capacity);
}

static void draw_titles(void)
{
    draw_title(1, "First data", "the legal word");
    draw_title(2, "Filled", "separators set");
    draw_title(3, "Second bits", "in the data cells");
    draw_title(4, "Read back", "from the cells alone");
}

static void draw_rows(const struct stages *stages)
{
    printf("<g text-anchor=\"middle\" font-size=\"11\">\n");
    draw_numbers();
    draw_brackets(stages);
    printf("</g>\n<g text-anchor=\"middle\" font-family=\"monospace\" "
           "font-size=\"13\" font-weight=\"bold\">\n");
    draw_word(stages, stages->first, 1);
    draw_word(stages, stages->filled, 2);
    draw_second(stages, 3);
    draw_read(stages, 4);
    printf("</g>\n");
}

int main(void)
{
    struct stages stages;

    if (!take_stages(&stages))
        return 1;
    draw_head(&stages);
    draw_titles();
    draw_rows(&stages);
    draw_legend();
    printf("</svg>\n");
    return 0;
}
