/* Rows of cells, each a symbol, with the parts of the frame above them and numbers below. All is
 * placed in whole pixels, and only as many rows are drawn as a frame can have: hence the bound on
 * the size. The caption is as high as two rows, and a printed page as fifteen, so that no row is
 * cut by the end of a page (but where two notes made one of the rows before it higher). */
#include "picture.h"

#include "caption.h"
#include "modes.h"
#include "outcome_words.h"
#include "shown.h"

enum {
    LEFT = 78, /* of the first cell; before it stands what the lines of a row are */
    ROW_WIDTH = 1024,
    MARGIN = 16,
    WIDTH = LEFT + ROW_WIDTH + MARGIN,
    /* in a row, from its top */
    PART_TEXT = 13,
    PART_LINE = 18,
    CELL_TOP = 24,
    CELL_HEIGHT = 20,
    VALUE_TEXT = 59,
    NEAREST_TEXT = 72,
    NEXT_TEXT = 84,
    NOTES_TOP = 88,
    ROW_HEIGHT = CAPTION_HEIGHT / 2,
    NOTE_HEIGHT = 16
};

/* Where a row stands, and which symbols it has. */
struct row {
    size_t first, behind;
    int top;
};

static int cell_width(const struct view *view)
{
    return ROW_WIDTH / (int)row_of(view->outcome->mode);
}

static int cell_left(const struct view *view, const struct row *row, size_t at)
{
    return LEFT + cell_width(view) * (int)(at - row->first);
}

/* Places in rows: one for each symbol, and where chips ran out one for what is not there. */
static size_t places(const struct view *view)
{
    return view->symbols.count + (view->outcome->reading.number == LERNAZHUP_RUNOUT);
}

/* The last symbol of a frame, or the one that was refused. */
static size_t reading_ended_at(const struct view *view)
{
    return refused(view) ? view->symbols.read : view->symbols.read - 1;
}

/* What is lost has no value, only a word that it is nearest to, and where several are as near not
 * even that. */
static void put_value(FILE *out, const lernazhup_matched *symbol)
{
    if (symbol->number == LERNAZHUP_DONE)
        fprintf(out, "value %x, ", (unsigned)symbol->word);
    else if (gap_of(symbol) > 0)
        fprintf(out, "lost, nearest to %x: ", (unsigned)symbol->word);
    else
        fputs("lost, several words as near: ", out);
}

static void put_title(FILE *out, const struct view *view, size_t at)
{
    const lernazhup_matched *symbol = &view->symbols.of[at];
    size_t size = LERNAZHUP_SYMBOL_CHIPS(view->outcome->mode), from = at * size, byte;
    fprintf(out, "<title>symbol %zu, bytes %zu to %zu: ", at, from, from + size - 1);
    if (symbol->number == LERNAZHUP_NOCHIP) {
        byte = no_chip(view->capture, from);
        fprintf(out, "byte %zu is %u, which is no chip", byte, view->capture->bytes[byte]);
    } else {
        put_value(out, symbol);
        fprintf(out, "nearest %u, next %u, gap %u", (unsigned)symbol->nearest, (unsigned)symbol->next, (unsigned)gap_of(symbol));
    }
    fputs(at > view->symbols.read ? "; not read</title>" : "</title>", out);
}

/* A rectangle of the width of a cell, or larger by some pixels on every side. Cells are two pixels
 * apart. */
static void put_rect(FILE *out, const struct view *view, int left, int top, int height, int larger)
{
    fprintf(out, "x=\"%d\" y=\"%d\" width=\"%d\" height=\"%d\"/>", left + 1 - larger, top - larger, cell_width(view) - 2 + 2 * larger,
            height + 2 * larger);
}

/* One that was not read has half the height. */
static void draw_cell(FILE *out, const struct view *view, size_t at, int left, int top)
{
    const lernazhup_matched *symbol = &view->symbols.of[at];
    int width = cell_width(view) - 2, height = at > view->symbols.read ? CELL_HEIGHT / 2 : CELL_HEIGHT;
    top += CELL_HEIGHT - height;
    fputs("<rect class=\"cell ", out);
    put_colour(out, view->outcome->mode, symbol);
    fputs("\" ", out);
    put_rect(out, view, left, top, height, 0);
    if (symbol->number == LERNAZHUP_LOST)
        fprintf(out, "<path class=\"cross\" d=\"M%d %dl%d %dm0 %dl%d %d\"/>", left + 1, top, width, height, -height, -width, height);
}

/* What stands under a symbol, on one of the lines. */
static void put_under(FILE *out, const char *kind, int middle, int line, const char *text)
{
    fprintf(out, "<text class=\"%s\" x=\"%d\" y=\"%d\">%s</text>", kind, middle, line, text);
}

/* The lines under a symbol. */
static void draw_numbers(FILE *out, const lernazhup_matched *symbol, int middle, int top)
{
    char text[16];
    snprintf(text, sizeof text, "%x", (unsigned)symbol->word);
    if (symbol->number == LERNAZHUP_DONE)
        put_under(out, "value", middle, top + VALUE_TEXT, text);
    else
        put_under(out, "none", middle, top + VALUE_TEXT, symbol->number == LERNAZHUP_LOST ? "lost" : "?");
    if (symbol->number == LERNAZHUP_NOCHIP)
        return;
    snprintf(text, sizeof text, "%u", (unsigned)symbol->nearest);
    put_under(out, "nearest", middle, top + NEAREST_TEXT, text);
    snprintf(text, sizeof text, "%u", (unsigned)symbol->next);
    put_under(out, "next", middle, top + NEXT_TEXT, text);
}

static void draw_symbol(FILE *out, const struct view *view, const struct row *row, size_t at)
{
    int left = cell_left(view, row, at);
    fprintf(out, "<g class=\"symbol%s\">", at > view->symbols.read ? " faint" : "");
    put_title(out, view, at);
    draw_cell(out, view, at, left, row->top + CELL_TOP);
    draw_numbers(out, &view->symbols.of[at], left + cell_width(view) / 2, row->top);
    fputs("</g>\n", out);
}

/* What is known of an octet: its part, and of one that was read its value, too; in ASCII, where
 * that shows something, only of a report. */
static void put_part(FILE *out, const struct view *view, enum part part, size_t octet_of_part, int read)
{
    fputs(part == REPORT ? "" : part_name(part), out);
    if (part == LENGTH && read)
        fprintf(out, " %u", (unsigned)view->receiver.length);
    if (part == REPORT && read) {
        uint8_t octet = view->receiver.octets[octet_of_part];
        char shown[] = {'\'', (char)octet, '\'', 0};
        fprintf(out, "%02x", octet);
        if (!refused(view) && octet >= 0x20 && octet < 0x7f) {
            putc(' ', out);
            show_xml(out, shown, 3);
        }
    }
}

/* A bracket over symbols, and what they are; open at its end where symbols are wanting. What a
 * refused frame has in it is no report, and doesn't look like one. */
static void draw_part(FILE *out, const struct view *view, const struct row *row, size_t at, size_t behind)
{
    int left = cell_left(view, row, at) + 2, right = cell_left(view, row, behind) - 2;
    size_t per = symbols_of_an_octet(view->outcome->mode), octet_of_part;
    enum part part = part_of(at / per, &octet_of_part);
    const char *kind = part != REPORT ? "name" : refused(view) ? "octet refused" : "octet";
    fprintf(out, "<g class=\"part%s\"><path d=\"M%d %dv-3h%d%s\"/>", at >= view->symbols.read ? " faint" : "", left, row->top + PART_LINE + 3,
            right - left, behind % per == 0 ? "v3" : "");
    if (part == REPORT)
        fprintf(out, "<text class=\"number\" x=\"%d\" y=\"%d\">#%zu</text>", left, row->top + PART_TEXT, octet_of_part);
    fprintf(out, "<text class=\"%s\" x=\"%d\" y=\"%d\">", kind, (left + right) / 2, row->top + PART_TEXT);
    put_part(out, view, part, octet_of_part, behind <= view->symbols.read);
    fputs("</text></g>\n", out);
}

/* The preamble has one bracket a row, all else one an octet. How many octets stand behind the
 * length only that tells. */
static void draw_parts(FILE *out, const struct view *view, const struct row *row)
{
    size_t per = symbols_of_an_octet(view->outcome->mode), at, next, ignored;
    for (at = row->first; at < row->behind; at = next) {
        if (view->symbols.frame == 0 && part_of(at / per, &ignored) == REPORT)
            break;
        next = at + per;
        while (part_of(at / per, &ignored) == PREAMBLE && part_of(next / per, &ignored) == PREAMBLE)
            next += per;
        next = next < row->behind ? next : row->behind;
        draw_part(out, view, row, at, next);
    }
}

/* A triangle under a symbol, and text beside it, on that side where there is more room. */
static void begin_note(FILE *out, const struct view *view, const struct row *row, size_t at, int top)
{
    int middle = cell_left(view, row, at) + cell_width(view) / 2, leftmost = at - row->first < row_of(view->outcome->mode) / 2;
    fprintf(out, "<g class=\"note\"><path d=\"M%d %dl-5 9h10z\"/><text class=\"%s\" x=\"%d\" y=\"%d\">", middle, top + 2,
            leftmost ? "after" : "before", leftmost ? middle + 9 : middle - 9, top + 11);
}

static void note_worst(FILE *out, const struct view *view)
{
    const struct symbols *symbols = &view->symbols;
    uint32_t gap = gap_of(&symbols->of[symbols->worst]);
    fprintf(out, "smallest gap%s: %u here", refused(view) ? " of those read" : "", (unsigned)gap);
    if (symbols->as_bad > 1)
        fprintf(out, ", and in %zu more symbol%s", symbols->as_bad - 1, symbols->as_bad == 2 ? "" : "s");
    fputs(gap == best_gap(view->outcome->mode) ? ", the best there is</text></g>\n" : "</text></g>\n", out);
}

static void note_end(FILE *out, const struct view *view)
{
    uint32_t number = view->outcome->reading.number;
    size_t size = LERNAZHUP_SYMBOL_CHIPS(view->outcome->mode);
    if (number == LERNAZHUP_DONE)
        fputs("the frame ends here", out);
    else
        fprintf(out, "the reading ended here: %u, %s", (unsigned)number, lernazhup_meaning(number));
    if (number == LERNAZHUP_RUNOUT)
        fprintf(out, ": %zu of %zu came", view->capture->have % size, size);
    fputs("</text></g>\n", out);
}

/* Over what is drawn there. */
static void draw_frame(FILE *out, const struct view *view, const struct row *row, size_t at, const char *kind)
{
    fprintf(out, "<rect class=\"%s\" ", kind);
    put_rect(out, view, cell_left(view, row, at), row->top + CELL_TOP, CELL_HEIGHT, 2);
}

/* There is a line for notes in each row; gives the height of what goes below it. */
static int draw_notes(FILE *out, const struct view *view, const struct row *row)
{
    size_t worst = view->symbols.worst, ended = reading_ended_at(view);
    int lines = 0;
    if (view->symbols.read > 0 && worst >= row->first && worst < row->behind) {
        draw_frame(out, view, row, worst, "worst");
        begin_note(out, view, row, worst, row->top + NOTES_TOP);
        note_worst(out, view);
        lines++;
    }
    if (ended >= row->first && ended < row->behind) {
        if (refused(view))
            draw_frame(out, view, row, ended, "ended");
        begin_note(out, view, row, ended, row->top + NOTES_TOP + NOTE_HEIGHT * lines);
        note_end(out, view);
        lines++;
    }
    return lines > 1 ? NOTE_HEIGHT : 0;
}

/* What the lines of a row are, and the number of its first symbol; in each row of a refused frame,
 * that it is one. */
static void draw_margin(FILE *out, const struct view *view, const struct row *row)
{
    static const struct {
        int line;
        const char *name;
    } lines[] = {{VALUE_TEXT, "value"}, {NEAREST_TEXT, "nearest"}, {NEXT_TEXT, "next"}, {PART_TEXT, "no report"}};
    size_t k;
    fprintf(out, "<g class=\"margin\"><text x=\"%d\" y=\"%d\">%zu</text>", LEFT - 8, row->top + CELL_TOP + 14, row->first);
    for (k = 0; k < (refused(view) ? 4 : 3); k++)
        fprintf(out, "<text x=\"%d\" y=\"%d\">%s</text>", LEFT - 8, row->top + lines[k].line, lines[k].name);
    fputs("</g>\n", out);
}

/* In the place of the symbol that chips ran out in. */
static void draw_missing(FILE *out, const struct view *view, const struct row *row, size_t at)
{
    size_t size = LERNAZHUP_SYMBOL_CHIPS(view->outcome->mode);
    fprintf(out, "<g><title>symbol %zu: %zu of its %zu bytes came</title><rect class=\"missing\" ", at, view->capture->have % size, size);
    put_rect(out, view, cell_left(view, row, at), row->top + CELL_TOP, CELL_HEIGHT, 0);
    fputs("</g>\n", out);
}

/* Gives its height. */
static int draw_row(FILE *out, const struct view *view, const struct row *row)
{
    size_t at;
    draw_margin(out, view, row);
    draw_parts(out, view, row);
    for (at = row->first; at < row->behind && at < view->symbols.count; at++)
        draw_symbol(out, view, row, at);
    if (at < row->behind)
        draw_missing(out, view, row, at);
    return ROW_HEIGHT + draw_notes(out, view, row);
}

void draw_picture(FILE *out, const struct view *view)
{
    size_t length = row_of(view->outcome->mode), count = places(view), rows = (count + length - 1) / length;
    int height = CAPTION_HEIGHT + (int)rows * ROW_HEIGHT + NOTE_HEIGHT;
    struct row row = {0, 0, CAPTION_HEIGHT};
    fputs("<?xml version=\"1.0\" encoding=\"UTF-8\"?>\n", out);
    fprintf(out, "<svg xmlns=\"http://www.w3.org/2000/svg\" width=\"%d\" height=\"%d\" viewBox=\"0 0 %d %d\">\n", WIDTH, height, WIDTH, height);
    draw_caption(out, view, MARGIN);
    if (refused(view)) /* along the whole of it, so that every page of paper shows it */
        fprintf(out, "<rect class=\"bar\" width=\"6\" height=\"%d\"/>\n", height);
    for (; row.first < count; row.first = row.behind) {
        row.behind = row.first + length < count ? row.first + length : count;
        row.top += draw_row(out, view, &row);
    }
    fputs("</svg>\n", out);
}
