/* The colours of distances go from a light yellow by green to a dark blue, after ColorBrewer's
 * YlGnBu: neighbours are apart to every eye, in grey as well, and mean the same on a light page and
 * on a dark one. What is lost is crossed out, too, so that it needs no colour. Paper is always
 * light. */
#include "caption.h"

#include "modes.h"
#include "outcome_words.h"
#include "shown.h"

enum { NAME_SHOWN = 48, SHADES = 7, KEY_TOP = 110 };

static const char style[] =
    "<style>\n"
    "text{font:12px \"DejaVu Sans Mono\",Menlo,Consolas,monospace;fill:#1b1f24}\n"
    ".words{font-family:\"DejaVu Sans\",Verdana,sans-serif;font-size:13px}\n"
    ".title,.outcome{font-weight:bold}.title{font-size:17px;white-space:pre}.outcome{font-size:14px}\n"
    ".page{fill:#fff}\n"
    ".cell,.swatch{stroke:#6b7280}\n"
    ".d0{fill:#ffffe8}.d1{fill:#c9eba8}.d2{fill:#94cfad}.d3{fill:#47b4ab}.d4{fill:#1d8abc}.d5{fill:#225ea8}.d6{fill:#0c2c84}\n"
    ".lost,.bar{fill:#f2a46f}rect.none{fill:#fff;stroke-dasharray:3 2}\n"
    ".cross,.part path,.missing,.worst,.ended{fill:none;stroke:#1b1f24}\n"
    ".worst,.ended{stroke-width:2.5}.ended{stroke:#b4531a}\n"
    ".missing{stroke-dasharray:1 4}\n"
    ".note path{fill:#1b1f24}\n"
    ".symbol text,.octet,.name{text-anchor:middle}\n"
    ".value,.octet,.note text{font-weight:bold}.value{font-size:14px}.refused{font-weight:normal}text.none{font-size:11px}\n"
    ".margin text,.before{text-anchor:end}.margin text,.number{fill:#57606a;font-size:11px}\n"
    ".faint rect,.faint path{opacity:.6}.faint text,.faint .cross{opacity:.7}.faint .value{font-weight:normal}\n"
    ".symbol{pointer-events:bounding-box}.worst,.ended{pointer-events:none}\n"
    "@media screen and (prefers-color-scheme:dark){\n"
    "svg{background:#12161b}text{fill:#e6e8eb}.page,rect.none{fill:#12161b}.margin text,.number{fill:#9aa4b0}\n"
    ".cell,.swatch{stroke:#8b95a1}.part path,.missing,.worst{stroke:#e6e8eb}.ended{stroke:#f2a46f}.note path{fill:#e6e8eb}}\n"
    "@page{size:A4;margin:13.5mm 10mm}@media print{svg{width:100%;height:auto}}\n"
    "</style>\n"
    "<rect class=\"page\" width=\"100%\" height=\"100%\"/>\n";

/* The accepted distances of every mode have the whole range of shades. */
void put_colour(FILE *out, uint32_t mode, const lernazhup_matched *symbol)
{
    uint32_t limit = LERNAZHUP_ACCEPTED(mode);
    if (symbol->number == LERNAZHUP_DONE)
        fprintf(out, "d%u", (unsigned)((symbol->nearest * (SHADES - 1) + limit / 2) / limit));
    else
        fputs(symbol->number == LERNAZHUP_LOST ? "lost" : "none", out);
}

static void begin_line(FILE *out, const char *kind, int left, int line)
{
    fprintf(out, "<text class=\"%s\" x=\"%d\" y=\"%d\">", kind, left, line);
}

/* How many of the symbols that were read have all the wrong chips that are accepted. */
static size_t at_the_limit(const struct view *view)
{
    size_t count = 0, k;
    for (k = 0; k < view->symbols.read; k++)
        count += view->symbols.of[k].nearest == LERNAZHUP_ACCEPTED(view->outcome->mode);
    return count;
}

static void draw_report(FILE *out, const struct view *view, int left)
{
    const struct outcome *done = view->outcome;
    size_t limit = at_the_limit(view);
    begin_line(out, "words", left, 76);
    fprintf(out, "%u of %zu chips repaired, smallest gap ", (unsigned)done->reading.count, done->chips);
    put_gap(out, done);
    fputs("</text>\n", out);
    begin_line(out, "words", left, 96);
    fputs("polarity ", out);
    put_polarity(out, done);
    fputs("; FCS ", out);
    put_fcs(out, done);
    if (limit > 0)
        fprintf(out, "; %zu symbol%s as far off as is accepted", limit, limit == 1 ? "" : "s");
    fputs("</text>\n", out);
}

/* Where no mode was named, this is the one that got farthest. */
static void draw_refusal(FILE *out, const struct view *view, int left)
{
    const struct symbols *symbols = &view->symbols;
    begin_line(out, "words", left, 76);
    fputs(view->outcomes.mode == NO_MODE ? "no mode reads it, and none got farther; " : "", out);
    fprintf(out, "%zu ", symbols->read);
    if (symbols->frame > 0)
        fprintf(out, "of %zu ", symbols->frame);
    fputs(symbols->read == 1 && symbols->frame == 0 ? "symbol read" : "symbols read", out);
    if (symbols->read > 0)
        fprintf(out, ", the smallest gap among them %u", (unsigned)gap_of(&symbols->of[symbols->worst]));
    fputs("</text>\n", out);
    if (symbols->count > symbols->read + 1) {
        begin_line(out, "words", left, 96);
        fputs("what is low and faint was not read: it shows how far off each symbol by itself is</text>\n", out);
    }
}

/* A swatch of the colour that such a symbol has; gives where its text begins. */
static int draw_swatch(FILE *out, uint32_t mode, const lernazhup_matched *symbol, int left)
{
    fputs("<rect class=\"swatch ", out);
    put_colour(out, mode, symbol);
    fprintf(out, "\" x=\"%d\" y=\"%d\" width=\"26\" height=\"16\"/>", left, KEY_TOP);
    if (symbol->number == LERNAZHUP_LOST)
        fprintf(out, "<path class=\"cross\" d=\"M%d %dl26 16m0 -16l-26 16\"/>", left, KEY_TOP);
    return left + 32;
}

static void draw_key(FILE *out, uint32_t mode, int left)
{
    lernazhup_matched symbol = {LERNAZHUP_DONE, 0, 0, 0};
    uint32_t limit = LERNAZHUP_ACCEPTED(mode);
    begin_line(out, "words", left, KEY_TOP + 13);
    fputs("chips from the nearest word</text>\n", out);
    for (left += 204; symbol.nearest <= limit; symbol.nearest++, left += 26) {
        left = draw_swatch(out, mode, &symbol, left);
        begin_line(out, "words", left, KEY_TOP + 13);
        fprintf(out, "%u</text>\n", (unsigned)symbol.nearest);
    }
    symbol.number = LERNAZHUP_LOST;
    left = draw_swatch(out, mode, &symbol, left + 20);
    begin_line(out, "words", left, KEY_TOP + 13);
    fprintf(out, "above %u: lost</text>\n", (unsigned)limit);
    symbol.number = LERNAZHUP_NOCHIP;
    left = draw_swatch(out, mode, &symbol, left + 120);
    begin_line(out, "words", left, KEY_TOP + 13);
    fputs("a byte that is no chip</text>\n", out);
}

/* What the numbers are. */
static void draw_legend(FILE *out, uint32_t mode, int left)
{
    draw_key(out, mode, left);
    begin_line(out, "words", left, KEY_TOP + 38);
    fputs("nearest, next: in how many chips a symbol differs from the nearest code word and from the nearest of the others; "
          "their difference is the gap</text>\n",
          out);
    begin_line(out, "words", left, KEY_TOP + 58);
    fputs(mode == 0 ? "value: the encoded bit; an octet's bits are the lowest first, 1 where a value differs from the one before</text>\n"
                    : "value: in hex; an octet's low half comes first</text>\n",
          out);
    begin_line(out, "words", left, KEY_TOP + 78);
    fputs("a row begins with the number of its first symbol; # is the number of an octet of the report, which is in hex</text>\n", out);
}

void draw_caption(FILE *out, const struct view *view, int left)
{
    fputs("<title>", out);
    show_xml(out, view->name, NAME_SHOWN);
    fputs(": ", out);
    put_outcome(out, view->outcome, view->capture);
    fputs("</title>\n", out);
    fputs(style, out);
    begin_line(out, "words title", left, 30);
    show_xml(out, view->name, NAME_SHOWN);
    fputs("</text>\n", out);
    begin_line(out, "words outcome", left, 54);
    put_outcome(out, view->outcome, view->capture);
    fputs("</text>\n", out);
    if (refused(view))
        draw_refusal(out, view, left);
    else
        draw_report(out, view, left);
    draw_legend(out, view->outcome->mode, left);
}
