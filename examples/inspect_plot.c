/*
 * How many bytes of a second record fit a first-round page, by either code and
 * by the share of ones in the record: a plot, as SVG on standard output.
 *
 *     inspect_plot          the plot
 *     inspect_plot table    some of its numbers, as a table
 *
 * The first records are random, and each bit of a second record is 1 with the
 * probability of its share; the numbers of bytes are taken from the library's
 * answers alone: for the fill code the page's capacity, for the Inspect code
 * how many bits of a record that is too long for every page go in. Exit status
 * 1, and nothing printed, when a call answers otherwise; 2 for other arguments.
 *
 * Build it at the repository's root, after make archive:
 *
 *     gcc -std=c99 -Wall -Wextra -Werror -pedantic -O2 -I include \
 *         -o inspect_plot examples/inspect_plot.c target/staticlib/libwom.a
 */
#include <stdint.h>
#include <stdio.h>
#include <string.h>

#include "wom.h"

#define PAGES 200
#define STEP 5 /* percent, from share to share */
#define SHARES (100 / STEP + 1)
#define TOO_LONG (WOM_INSPECT_BYTES_MAX + 1)

/* ---- The numbers ------------------------------------------------------- */

/* Of the bytes that fit, over all pages. */
struct spread {
    unsigned least;
    unsigned most;
    unsigned sum;
};

static struct spread fill_code;
static struct spread inspect_code[SHARES];

static void add(struct spread *spread, uint64_t bits)
{
    unsigned bytes = (unsigned)(bits / 8);

    if (spread->sum == 0 || bytes < spread->least)
        spread->least = bytes;
    if (bytes > spread->most)
        spread->most = bytes;
    spread->sum += bytes;
}

static double mean(const struct spread *spread)
{
    return (double)spread->sum / PAGES;
}

/* SplitMix64: a number from 0 to the one before 'below', at most 2^32. */
static uint64_t random_below(uint64_t below)
{
    static uint64_t state = 1;
    uint64_t z = state += UINT64_C(0x9e3779b97f4a7c15);

    z = (z ^ (z >> 30)) * UINT64_C(0xbf58476d1ce4e5b9);
    z = (z ^ (z >> 27)) * UINT64_C(0x94d049bb133111eb);
    return (((z ^ (z >> 31)) >> 32) * below) >> 32;
}

static int make_page(uint8_t *page)
{
    uint8_t data[WOM_FIRST_BYTES];
    int i;

    for (i = 0; i < WOM_FIRST_BYTES; i++)
        data[i] = (uint8_t)random_below(256);
    memset(page, 0, WOM_PAGE_BYTES);
    return wom_refusal(wom_write_first(page, WOM_PAGE_BYTES, data,
                                       sizeof data)) == 0;
}

static void make_record(uint8_t *record, unsigned percent)
{
    int i;

    memset(record, 0, TOO_LONG);
    for (i = 0; i < 8 * TOO_LONG; i++)
        record[i / 8] |= (uint8_t)((random_below(100) < percent) << i % 8);
}

static int take_fill(const uint8_t *page)
{
    uint64_t capacity = wom_page_capacity(page, WOM_PAGE_BYTES);

    add(&fill_code, wom_result(capacity));
    return wom_refusal(capacity) == 0;
}

/* The refused call leaves the page as it is. */
static int take_inspect(uint8_t *page, int share)
{
    uint8_t record[TOO_LONG];
    uint64_t refused;

    make_record(record, (unsigned)(STEP * share));
    refused = wom_write_inspect(page, WOM_PAGE_BYTES, record, sizeof record);
    add(&inspect_code[share], wom_index(refused));
    return wom_refusal(refused) == WOM_REFUSED_RECORD_LENGTH;
}

static int take_page(void)
{
    uint8_t page[WOM_PAGE_BYTES];
    int taken = make_page(page) && take_fill(page);
    int share;

    for (share = 0; taken && share < SHARES; share++)
        taken = take_inspect(page, share);
    return taken;
}

static int take_numbers(void)
{
    int taken = 1;
    int i;

    for (i = 0; taken && i < PAGES; i++)
        taken = take_page();
    return taken;
}

/* ---- The table --------------------------------------------------------- */

static const int told[] = {0, 5, 10, 25, 50, 75, 100}; /* percent */

static void print_spread(const struct spread *spread)
{
    printf("%u | %.1f | %u |\n", spread->least, mean(spread), spread->most);
}

static void print_table(void)
{
    size_t i;

    printf("| Code, ones in the record | Least bytes | Mean | Most |\n"
           "|---|---|---|---|\n"
           "| fill code, whatever the record | ");
    print_spread(&fill_code);
    for (i = 0; i < sizeof told / sizeof told[0]; i++) {
        printf("| Inspect code, %d %% | ", told[i]);
        print_spread(&inspect_code[told[i] / STEP]);
    }
}

/* ---- The axes ---------------------------------------------------------- */

#define WIDTH 720
#define HEIGHT 470
#define LEFT 76
#define BOTTOM 404
#define MOST_BYTES 200

static int x_of(int percent)
{
    return LEFT + 6 * percent;
}

static double y_of(double bytes)
{
    return BOTTOM - 1.6 * bytes;
}

static void draw_line(double y, const char *style)
{
    printf("<path d=\"M%d %.1fH%d\" fill=\"none\" %s/>\n", x_of(0), y,
           x_of(100), style);
}

static void draw_x_axis(void)
{
    int percent;

    for (percent = 0; percent <= 100; percent += 10)
        printf("<path d=\"M%d %dv5\" stroke=\"#000000\"/>"
               "<text x=\"%d\" y=\"%d\" text-anchor=\"middle\">%d</text>\n",
               x_of(percent), BOTTOM, x_of(percent), BOTTOM + 20, percent);
    printf("<text x=\"%d\" y=\"%d\" text-anchor=\"middle\">"
           "ones among the record's bits, in percent</text>\n",
           x_of(50), BOTTOM + 46);
}

static void draw_y_axis(void)
{
    int bytes;

    for (bytes = 0; bytes <= MOST_BYTES; bytes += 25)
        printf("<path d=\"M%d %.1fh-5\" stroke=\"#000000\"/>"
               "<text x=\"%d\" y=\"%.1f\" text-anchor=\"end\">%d</text>\n",
               LEFT, y_of(bytes), LEFT - 9, y_of(bytes) + 5, bytes);
    printf("<text transform=\"translate(24 %.1f) rotate(-90)\" "
           "text-anchor=\"middle\">bytes that fit</text>\n",
           y_of(MOST_BYTES / 2));
    printf("<path d=\"M%d %.1fV%dH%d\" fill=\"none\" stroke=\"#000000\"/>\n",
           x_of(0), y_of(MOST_BYTES), BOTTOM, x_of(100));
}

/* ---- The codes --------------------------------------------------------- */

#define INSPECT_BAND "fill=\"#c3ced9\""
#define INSPECT_MEAN "stroke=\"#1d2b3a\" stroke-width=\"2.2\""
#define FILL_BAND "fill=\"#f0e2b8\""
#define FILL_MEAN \
    "stroke=\"#6b4f00\" stroke-width=\"2.2\" stroke-dasharray=\"9 5\""

static void draw_fill(void)
{
    printf("<rect x=\"%d\" y=\"%.1f\" width=\"%d\" height=\"%.1f\" " FILL_BAND
           "/>\n",
           x_of(0), y_of(fill_code.most), x_of(100) - x_of(0),
           y_of(fill_code.least) - y_of(fill_code.most));
    draw_line(y_of(mean(&fill_code)), FILL_MEAN);
}

static void draw_point(int share, double bytes)
{
    printf(" %d,%.1f", x_of(STEP * share), y_of(bytes));
}

/* Along the most to the right, and along the least back. */
static void draw_inspect_band(void)
{
    int i;

    printf("<polygon " INSPECT_BAND " points=\"");
    for (i = 0; i < 2 * SHARES; i++)
        if (i < SHARES)
            draw_point(i, inspect_code[i].most);
        else
            draw_point(2 * SHARES - 1 - i,
                       inspect_code[2 * SHARES - 1 - i].least);
    printf("\"/>\n");
}

static void draw_inspect_mean(void)
{
    int share;

    printf("<polyline fill=\"none\" " INSPECT_MEAN " points=\"");
    for (share = 0; share < SHARES; share++)
        draw_point(share, mean(&inspect_code[share]));
    printf("\"/>\n");
}

/* What always fits. */
static void draw_sure(int bytes, const char *code)
{
    draw_line(y_of(bytes), "stroke=\"#000000\" stroke-dasharray=\"1.5 3.5\"");
    printf("<text x=\"%d\" y=\"%.1f\">%d bytes always fit by the %s</text>\n",
           x_of(1), y_of(bytes) - 6, bytes, code);
}

static void draw_names(void)
{
    printf("<g font-weight=\"bold\">"
           "<text x=\"%d\" y=\"%.1f\">Inspect code</text>"
           "<text x=\"%d\" y=\"%.1f\" text-anchor=\"end\">fill code</text>"
           "</g>\n",
           x_of(20), y_of(inspect_code[20 / STEP].most) - 10, x_of(100),
           y_of(fill_code.least) + 17);
}

static void draw_head(void)
{
    printf("<svg xmlns=\"http://www.w3.org/2000/svg\" width=\"%d\" "
           "height=\"%d\" viewBox=\"0 0 %d %d\" font-family=\"sans-serif\" "
           "font-size=\"13\">\n"
           "<title>Bytes of a second record that fit a page</title>\n"
           "<rect width=\"%d\" height=\"%d\" fill=\"#ffffff\"/>\n",
           WIDTH, HEIGHT, WIDTH, HEIGHT, WIDTH, HEIGHT);
    printf("<text x=\"16\" y=\"30\" font-size=\"18\" font-weight=\"bold\">"
           "Bytes of a second record that fit a page, by either code</text>\n"
           "<text x=\"16\" y=\"54\">%d random first-round pages and random "
           "records. Line: mean; band: least to most.</text>\n",
           PAGES);
}

static void draw_plot(void)
{
    draw_head();
    draw_y_axis();
    draw_x_axis();
    draw_fill();
    draw_inspect_band();
    draw_inspect_mean();
    draw_sure(WOM_INSPECT_BYTES_SURE, "Inspect code");
    draw_sure(WOM_SECOND_BYTES_SURE, "fill code");
    draw_names();
    printf("</svg>\n");
}

int main(int argc, char **argv)
{
    int table = argc == 2 && strcmp(argv[1], "table") == 0;

    if (argc != 1 && !table) {
        fprintf(stderr, "usage: inspect_plot [table]\n");
        return 2;
    }
    if (!take_numbers())
        return 1;
    if (table)
        print_table();
    else
        draw_plot();
    return 0;
}
