/* Which symbols are of a frame the reading says; what each is, lernazhup_match. The two agree on
 * every symbol that was read: it is proved that the reader takes what the match gives. */
#include "view.h"

#include "modes.h"

uint32_t gap_of(const lernazhup_matched *symbol)
{
    return symbol->next - symbol->nearest;
}

size_t row_of(uint32_t mode)
{
    return (mode == 0 ? 4 : 8) * symbols_of_an_octet(mode);
}

int refused(const struct view *view)
{
    return view->outcome->reading.number != LERNAZHUP_DONE;
}

static void find_worst(struct symbols *symbols)
{
    size_t k;
    symbols->worst = symbols->as_bad = 0;
    for (k = 0; k < symbols->read; k++) {
        uint32_t gap = gap_of(&symbols->of[k]), worst = gap_of(&symbols->of[symbols->worst]);
        if (gap < worst) {
            symbols->worst = k;
            symbols->as_bad = 0;
        }
        symbols->as_bad += gap <= worst;
    }
}

static void match_symbols(struct symbols *symbols, struct input *capture, const struct outcome *outcome)
{
    size_t size = LERNAZHUP_SYMBOL_CHIPS(outcome->mode), k;
    symbols->read = outcome->reading.place;
    symbols->frame = outcome->sized ? outcome->chips / size : 0;
    symbols->count = outcome->sized ? symbols->frame : symbols->read + row_of(outcome->mode);
    if (!input_has(capture, symbols->count * size))
        symbols->count = capture->have / size;
    for (k = 0; k < symbols->count; k++)
        symbols->of[k] = lernazhup_match(outcome->mode, capture->bytes + k * size, size);
    find_worst(symbols);
}

void see(struct view *view, struct input *capture, const char *name, uint32_t mode)
{
    view->name = name;
    view->capture = capture;
    try_modes(&view->outcomes, capture, mode, 0);
    view->outcome = foremost(&view->outcomes);
    view->receiver = receive(capture, 0, view->outcome->mode);
    match_symbols(&view->symbols, capture, view->outcome);
}
