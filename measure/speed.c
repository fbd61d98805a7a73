/* The speed measurement: the library beside the C baselines, in one run.
 *
 *   speed [repetitions]        at least 51, which is also what it does when not told
 *   speed NAME MODE ROUNDS     so many rounds of one contestant over a few frames, and how many
 *                              chips, or octets of an FCS, a round has: for measure/instructions
 *
 * Each repetition times every contestant once, in turn, and the next repetition begins one
 * contestant later: whatever else the machine is doing then falls on all of them alike. A
 * contestant works through 32 different frames of 127 octets, so that no processor knows them by
 * heart; their reports end in the right FCS, so that the checked reader reads them, too. In the
 * noisy frames each symbol has a random number of wrong chips, from none to as many as its radio
 * accepts, and in mode 0 every other one comes inverted. An FCS is worked out of 127 other octets,
 * and so often that it can be timed. Time is the processor's time of this thread, so that being set
 * aside for another program isn't counted. Every answer is checked before anything is timed, and
 * the sum of the answers each time after that; a wrong one ends the program with 1. A figure that
 * was missed is only said, since it depends on the machine. */
#define _POSIX_C_SOURCE 199309L
#include <stdio.h>
#include <stdlib.h>
#include <string.h>
#include <time.h>

#include "baselines.h"

enum { MODES = 3, FRAMES = 32, OCTETS = LERNAZHUP_REPORT_MAX, LEAST_REPETITIONS = 51, MOST_REPETITIONS = 2001, WARM_UP = 3 };
enum { NO_RADIO = MODES, FCS_ROUNDS = 16, FEW = 4 };

typedef lernazhup_reading reader(uint32_t, const uint8_t *, size_t, uint8_t *, size_t);
typedef lernazhup_written writer(uint32_t, const uint8_t *, size_t, uint8_t *, size_t);
typedef lernazhup_step pusher(lernazhup_receiver, const uint8_t *, size_t);
typedef uint32_t checker(const uint8_t *, size_t);

static uint8_t reports[FRAMES][OCTETS], unsealed[FRAMES][OCTETS];
static uint8_t clean[MODES][FRAMES][LERNAZHUP_CHIPS_MAX];
static uint8_t noisy[MODES][FRAMES][LERNAZHUP_CHIPS_MAX];
static uint32_t wrong_chips[MODES][FRAMES], gaps[MODES][FRAMES], polarities[MODES][FRAMES];
static size_t frames = FRAMES;

struct contestant {
    const char *name;
    reader *read;  /* one of the three isn't null */
    writer *write;
    checker *fcs;
    int with_noise;
    int reads;     /* whether the answer is a reading's, to be checked */
    uint32_t mode; /* NO_RADIO of an FCS */
    uint32_t expected; /* what the work gives back */
    double ns[MOST_REPETITIONS]; /* a chip, or an octet of an FCS, one for each repetition */
};

/* Chips of the longest frame. */
static size_t frame_chips(uint32_t mode)
{
    return LERNAZHUP_FRAME_CHIPS(mode, OCTETS);
}

static uint32_t random_number(void)
{
    static uint64_t state = 0x9E3779B97F4A7C15;
    state ^= state << 13;
    state ^= state >> 7;
    state ^= state << 17;
    return (uint32_t)(state >> 32);
}

static void wrong(const char *name, uint32_t mode)
{
    fprintf(stderr, "speed: wrong answer: %s, mode %u\n", name, (unsigned)mode);
    exit(1);
}

/* Inverts some chips of one symbol, at most the limit, no chip twice; returns how many. */
static uint32_t spoil(uint8_t *chips, uint32_t mode)
{
    uint32_t wanted = random_number() % (LERNAZHUP_ACCEPTED(mode) + 1), inverted = 0, hit = 0;
    while (inverted < wanted) {
        uint32_t at = random_number() % LERNAZHUP_SYMBOL_CHIPS(mode);
        if (hit >> at & 1)
            continue;
        hit |= UINT32_C(1) << at;
        chips[at] ^= 1;
        inverted++;
    }
    return inverted;
}

/* A frame without errors and with them. The gap of the latter is for the usual reader to say, and
 * for the others to agree to. */
static void make_frame(uint32_t mode, size_t frame)
{
    uint8_t report[OCTETS];
    size_t at;
    lernazhup_written written =
        copying_write(mode, reports[frame], OCTETS, clean[mode][frame], frame_chips(mode));
    if (written.number != LERNAZHUP_DONE || written.chips != frame_chips(mode))
        wrong("copying_write", mode);
    polarities[mode][frame] = mode == 0 && frame % 2 == 1;
    for (at = 0; at < frame_chips(mode); at++)
        noisy[mode][frame][at] = (uint8_t)(clean[mode][frame][at] ^ polarities[mode][frame]);
    for (at = 0; at < frame_chips(mode); at += LERNAZHUP_SYMBOL_CHIPS(mode))
        wrong_chips[mode][frame] += spoil(noisy[mode][frame] + at, mode);
    gaps[mode][frame] = usual_read(mode, noisy[mode][frame], frame_chips(mode), report, OCTETS).gap;
}

static void make_frames(void)
{
    size_t frame, i;
    uint32_t mode, fcs;
    for (frame = 0; frame < frames; frame++) {
        for (i = 0; i < OCTETS; i++) {
            reports[frame][i] = (uint8_t)random_number();
            unsealed[frame][i] = (uint8_t)random_number();
        }
        fcs = usual_fcs(reports[frame], OCTETS - 2);
        reports[frame][OCTETS - 2] = (uint8_t)fcs;
        reports[frame][OCTETS - 1] = (uint8_t)(fcs >> 8);
        for (mode = 0; mode < MODES; mode++)
            make_frame(mode, frame);
    }
}

/* The receiver in a reader's clothes: start, push each symbol, take. */
static lernazhup_reading stepped(pusher *push, uint32_t mode, const uint8_t *chips, size_t chips_len, uint8_t *report,
                                 size_t report_len)
{
    lernazhup_step step = lernazhup_start(mode);
    size_t length = LERNAZHUP_SYMBOL_CHIPS(mode), at;
    for (at = 0; at + length <= chips_len && step.number == LERNAZHUP_MORE; at += length)
        step = push(step.receiver, chips + at, length);
    return lernazhup_take(step.receiver, report, report_len);
}

static lernazhup_reading stepping_read(uint32_t mode, const uint8_t *chips, size_t chips_len, uint8_t *report,
                                       size_t report_len)
{
    return stepped(lernazhup_push, mode, chips, chips_len, report, report_len);
}

/* The same calls with a push that does nothing, for what the record by value takes alone. */
static lernazhup_reading handing_read(uint32_t mode, const uint8_t *chips, size_t chips_len, uint8_t *report,
                                      size_t report_len)
{
    return stepped(handing_push, mode, chips, chips_len, report, report_len);
}

static struct contestant contestants[] = {
#define ONE(name, read, write, with_noise, mode) \
    {name, read, write, NULL, with_noise, read != handing_read, mode, 0, {0}}
#define FCS(name, fcs) {name, NULL, NULL, fcs, 0, 1, NO_RADIO, 0, {0}}
#define EACH(name, read, write, with_noise) \
    ONE(name, read, write, with_noise, 0), ONE(name, read, write, with_noise, 1), ONE(name, read, write, with_noise, 2)
    EACH("lernazhup_read", lernazhup_read, NULL, 1),
    EACH("usual_read", usual_read, NULL, 1),
    EACH("usual_read, own popcount", usual_own_read, NULL, 1),
    EACH("lernazhup_read, no errors", lernazhup_read, NULL, 0),
    EACH("usual_read, no errors", usual_read, NULL, 0),
    EACH("lernazhup_read_checked", lernazhup_read_checked, NULL, 1),
    EACH("lernazhup_write", NULL, lernazhup_write, 0),
    EACH("copying_write", NULL, copying_write, 0),
    EACH("receiver", stepping_read, NULL, 1),
    EACH("receiver, no errors", stepping_read, NULL, 0),
    EACH("record handed on", handing_read, NULL, 0),
    EACH("best_read", best_read, NULL, 1),
    EACH("best_read, no errors", best_read, NULL, 0),
    FCS("lernazhup_fcs", lernazhup_fcs),
    FCS("usual_fcs", usual_fcs),
#undef FCS
#undef EACH
#undef ONE
};
enum { CONTESTANTS = sizeof contestants / sizeof contestants[0] };

static const uint8_t *chips_for(const struct contestant *contestant, size_t frame)
{
    return contestant->with_noise ? noisy[contestant->mode][frame] : clean[contestant->mode][frame];
}

/* What the reading of a frame has to give back. */
static lernazhup_reading due(const struct contestant *contestant, size_t frame)
{
    uint32_t mode = contestant->mode;
    lernazhup_reading reading = {LERNAZHUP_DONE, 0, OCTETS, 0, 0, 0};
    reading.place = (uint32_t)(frame_chips(mode) / LERNAZHUP_SYMBOL_CHIPS(mode));
    reading.gap = LERNAZHUP_BY_MODE(mode, 15u, 12u, 6u);
    if (contestant->with_noise) {
        reading.count = wrong_chips[mode][frame];
        reading.gap = gaps[mode][frame];
        reading.polarity = polarities[mode][frame];
    }
    return reading;
}

static void check_reader(const struct contestant *contestant, size_t frame)
{
    uint32_t mode = contestant->mode;
    uint8_t report[OCTETS];
    lernazhup_reading expected = due(contestant, frame);
    lernazhup_reading reading =
        contestant->read(mode, chips_for(contestant, frame), frame_chips(mode), report, OCTETS);
    if (memcmp(&reading, &expected, sizeof reading) != 0 ||
        memcmp(report, reports[frame], OCTETS) != 0)
        wrong(contestant->name, mode);
}

static void check_writer(const struct contestant *contestant, size_t frame)
{
    static uint8_t chips[LERNAZHUP_CHIPS_MAX];
    uint32_t mode = contestant->mode;
    lernazhup_written written = contestant->write(mode, reports[frame], OCTETS, chips, frame_chips(mode));
    if (written.number != LERNAZHUP_DONE || written.chips != frame_chips(mode) ||
        memcmp(chips, clean[mode][frame], frame_chips(mode)) != 0)
        wrong(contestant->name, mode);
}

/* Bit by bit it is another way to the same number. */
static void check_fcs(const struct contestant *contestant, size_t frame)
{
    if (contestant->fcs(unsealed[frame], OCTETS) != lernazhup_fcs_bitwise(unsealed[frame], OCTETS))
        wrong(contestant->name, contestant->mode);
}

static uint32_t fcs_work(checker *fcs)
{
    uint32_t sum = 0;
    size_t round, frame;
    for (round = 0; round < FCS_ROUNDS; round++)
        for (frame = 0; frame < frames; frame++)
            sum += fcs(unsealed[frame], OCTETS);
    return sum;
}

/* The work that is timed. The sum of the answers is given back so that none can be left out. */
static uint32_t work(const struct contestant *contestant)
{
    static uint8_t chips[LERNAZHUP_CHIPS_MAX], report[OCTETS];
    uint32_t mode = contestant->mode, sum = 0;
    size_t frame;
    if (contestant->fcs != NULL)
        return fcs_work(contestant->fcs);
    if (contestant->read != NULL)
        for (frame = 0; frame < frames; frame++)
            sum += contestant->read(mode, chips_for(contestant, frame), frame_chips(mode), report, OCTETS).count;
    else
        for (frame = 0; frame < frames; frame++)
            sum += contestant->write(mode, reports[frame], OCTETS, chips, frame_chips(mode)).chips;
    return sum;
}

static void check(struct contestant *contestant)
{
    size_t frame;
    for (frame = 0; frame < frames; frame++) {
        if (!contestant->reads)
            continue;
        if (contestant->fcs != NULL)
            check_fcs(contestant, frame);
        else if (contestant->read != NULL)
            check_reader(contestant, frame);
        else
            check_writer(contestant, frame);
    }
    contestant->expected = work(contestant);
}

/* Brings a reader's frames near the processor: whoever ran before has pushed some of them out, and
 * a frame that has just been received is near. The work itself isn't run for it, since the
 * processor would learn its branches. */
static void fetch(const struct contestant *contestant)
{
    size_t frame, at;
    for (frame = 0; contestant->read != NULL && frame < frames; frame++) {
        const volatile uint8_t *chips = chips_for(contestant, frame);
        for (at = 0; at < frame_chips(contestant->mode); at += 64)
            (void)chips[at];
    }
}

/* Chips of a frame, or octets of an FCS. */
static double frame_units(uint32_t mode)
{
    return mode == NO_RADIO ? OCTETS : (double)frame_chips(mode);
}

/* The units in all of a contestant's work. */
static double work_units(const struct contestant *contestant)
{
    return frame_units(contestant->mode) * (double)frames * (contestant->fcs != NULL ? FCS_ROUNDS : 1);
}

/* Nanoseconds a unit. */
static double timed(const struct contestant *contestant)
{
    struct timespec before, after;
    uint32_t sum;
    fetch(contestant);
    clock_gettime(CLOCK_THREAD_CPUTIME_ID, &before);
    sum = work(contestant);
    clock_gettime(CLOCK_THREAD_CPUTIME_ID, &after);
    if (sum != contestant->expected)
        wrong(contestant->name, contestant->mode);
    return ((double)(after.tv_sec - before.tv_sec) * 1e9 + (double)(after.tv_nsec - before.tv_nsec)) /
           work_units(contestant);
}

static void measure(int repetitions)
{
    int i, repetition;
    for (repetition = -WARM_UP; repetition < repetitions; repetition++)
        for (i = 0; i < CONTESTANTS; i++) {
            struct contestant *contestant = &contestants[(i + repetition + WARM_UP) % CONTESTANTS];
            double ns = timed(contestant);
            if (repetition >= 0)
                contestant->ns[repetition] = ns;
        }
}

static struct contestant *find(const char *name, uint32_t mode)
{
    int i;
    for (i = 0; i < CONTESTANTS; i++)
        if (strcmp(contestants[i].name, name) == 0 && contestants[i].mode == mode)
            return &contestants[i];
    return NULL;
}

static void print_machine(int repetitions)
{
    char line[256], model[256] = "unknown\n";
    FILE *file = fopen("/proc/cpuinfo", "r");
    while (file != NULL && fgets(line, sizeof line, file) != NULL)
        if (sscanf(line, "model name : %255[^\n]", model) == 1)
            break;
    if (file != NULL)
        fclose(file);
    model[strcspn(model, "\n")] = 0;
    printf("Machine: %s. Compiler of the C: %s.\n", model, __VERSION__);
    printf("Frames of %d octets, %d of them; medians of %d interleaved repetitions.\n\n", OCTETS, FRAMES, repetitions);
}

static int rising(const void *a, const void *b)
{
    double x = *(const double *)a, y = *(const double *)b;
    return (x > y) - (x < y);
}

/* The least and the median of a contestant's times, each divided by the other contestant's in the
 * same repetition where one is given: a spell in which the machine is slow then has no say in the
 * ratio. */
static void summarise(const struct contestant *contestant, const struct contestant *over, int repetitions, double *least,
                      double *median)
{
    static double sorted[MOST_REPETITIONS];
    int i;
    for (i = 0; i < repetitions; i++)
        sorted[i] = over == NULL ? contestant->ns[i] : contestant->ns[i] / over->ns[i];
    qsort(sorted, (size_t)repetitions, sizeof sorted[0], rising);
    *least = sorted[0];
    *median = sorted[repetitions / 2];
}

static const char *const mode_names[MODES + 1] = {"0", "1", "2", "-"};

static void print_times(int repetitions)
{
    double least, median;
    uint32_t mode;
    int i;
    printf("| mode | contestant | ns a chip, of an FCS an octet | least | frames a second |\n");
    printf("|---|---|---|---|---|\n");
    for (mode = 0; mode <= NO_RADIO; mode++)
        for (i = 0; i < CONTESTANTS; i++)
            if (contestants[i].mode == mode) {
                summarise(&contestants[i], NULL, repetitions, &least, &median);
                printf("| %s | %s | %.4f | %.4f | ", mode_names[mode], contestants[i].name, median,
                       least);
                printf("%.0f |\n", 1e9 / (median * frame_units(mode)));
            }
}

struct ratio {
    const char *name, *against;
    double targets[MODES + 1]; /* 0 is none */
};

static void print_ratio(const struct ratio *ratio, uint32_t mode, int repetitions)
{
    const struct contestant *a = find(ratio->name, mode), *b = find(ratio->against, mode);
    double unused, median, least_a, least_b, target = ratio->targets[mode];
    if (a == NULL || b == NULL)
        return;
    summarise(a, NULL, repetitions, &least_a, &unused);
    summarise(b, NULL, repetitions, &least_b, &unused);
    summarise(a, b, repetitions, &unused, &median);
    printf("| %s | %s over %s | ", mode_names[mode], a->name, b->name);
    printf("%.3f | %.3f |", median, least_a / least_b);
    if (target > 0)
        printf(" at most %.2f | %s |\n", target, median <= target ? "met" : "missed");
    else
        printf(" none | |\n");
}

static void print_ratios(int repetitions)
{
    static const struct ratio ratios[] = {
        {"lernazhup_read", "usual_read", {0.33, 0.30, 0.40, 0}},
        {"lernazhup_read", "usual_read, own popcount", {0}},
        {"lernazhup_read_checked", "lernazhup_read", {1.15, 1.15, 1.15, 0}},
        {"lernazhup_fcs", "usual_fcs", {0, 0, 0, 1.3}},
        {"lernazhup_write", "copying_write", {0.8, 1.5, 1.8, 0}},
        {"receiver", "lernazhup_read", {3.0, 3.0, 0, 0}},
        {"receiver", "record handed on", {1.3, 1.3, 1.3, 0}},
        {"record handed on", "lernazhup_read", {0}},
        {"lernazhup_read, no errors", "usual_read, no errors", {0}},
        {"lernazhup_read", "best_read", {0}},
        {"usual_read", "best_read", {0}},
    };
    uint32_t mode;
    size_t i;
    printf("\n| mode | ratio | median of the ratios | ratio of the least times | target for the median | |\n");
    printf("|---|---|---|---|---|---|\n");
    for (i = 0; i < sizeof ratios / sizeof ratios[0]; i++)
        for (mode = 0; mode <= NO_RADIO; mode++)
            print_ratio(&ratios[i], mode, repetitions);
}

/* The work, checked once, and no more before it than it needs. */
static int run_rounds(const char *name, const char *mode, int rounds)
{
    struct contestant *contestant = find(name, (uint32_t)atoi(mode));
    if (contestant == NULL) {
        fprintf(stderr, "speed: no contestant: %s, mode %s\n", name, mode);
        return 2;
    }
    frames = FEW;
    make_frames();
    check(contestant);
    while (rounds-- > 0)
        work(contestant);
    printf("%.0f\n", work_units(contestant));
    return 0;
}

int main(int argc, char **argv)
{
    int repetitions = argc > 1 ? atoi(argv[1]) : LEAST_REPETITIONS, i;
    if (argc == 4)
        return run_rounds(argv[1], argv[2], atoi(argv[3]));
    if (repetitions < LEAST_REPETITIONS)
        repetitions = LEAST_REPETITIONS;
    if (repetitions > MOST_REPETITIONS)
        repetitions = MOST_REPETITIONS;
    make_frames();
    for (i = 0; i < CONTESTANTS; i++)
        check(&contestants[i]);
    measure(repetitions);
    print_machine(repetitions);
    print_times(repetitions);
    print_ratios(repetitions);
    return 0;
}
