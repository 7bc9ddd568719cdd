/* A day of two workers through the library, as a host in C plans it: the library's version, texts that are read, plans by each policy,
 * refusals, a collection, withdrawals, the day's series, and how long a width takes to settle. `examples/host/run` builds it, runs it
 * and holds what it prints against day.out. After every refusal all that was lent is compared, byte by byte, with what it was before the
 * call. */
#include "latchmeander.h"

#include <stdio.h>
#include <string.h>

#define WORDS 22468 /* what latchmeander_room() answers */
#define MOST 4      /* sequences in a plan of this day */
#define WALKS 64    /* what latchmeander_settles wants room for */

/* All that is lent to be written. The host owns it; the planner is `words`. */
typedef struct {
    uint64_t words[WORDS];
    uint32_t bank_commits[8];
    double signals[32], curve[5];
    uint32_t depths[8], batches[8];
    double seconds[8];
    uint32_t drafts[MOST], commits[MOST];
    uint32_t widths[WALKS];
} lent;

static lent h, before;
static latchmeander_read bank, table;
static int faults;

static void keep(void) { memcpy(&before, &h, sizeof h); }

static void refused(uint64_t number) {
    int same = memcmp(&before, &h, sizeof h) == 0;
    faults += !same;
    printf("refused %lu, %s\n", (unsigned long)number, same ? "nothing changed" : "CHANGED");
}

/* ---- Texts ---- */

static latchmeander_read read_bank(const char *text) {
    keep();
    latchmeander_read read = latchmeander_bank_read((const uint8_t *)text, strlen(text), h.bank_commits, 8, h.signals, 32, h.curve, 5);
    printf("bank: ");
    if (read.refusal) {
        printf("row %lu ", (unsigned long)read.row);
        refused(read.refusal);
        return read;
    }
    printf("%u rounds of %u, curve", read.rows, read.depth);
    for (uint32_t g = 0; g <= read.depth; g++) printf(" %.4f", h.curve[g]);
    printf("\n");
    return read;
}

static latchmeander_read read_table(const char *text) {
    keep();
    latchmeander_read read = latchmeander_table_read((const uint8_t *)text, strlen(text), h.depths, 8, h.batches, 8, h.seconds, 8);
    printf("table: ");
    if (read.refusal) {
        printf("row %lu ", (unsigned long)read.row);
        refused(read.refusal);
        return read;
    }
    printf("%u rows,", read.rows);
    for (uint32_t i = 0; i < read.rows; i++)
        printf(" depth %u batch %u %.4f s%s", h.depths[i], h.batches[i], h.seconds[i], i + 1 < read.rows ? "," : "\n");
    return read;
}

/* ---- Plans ---- */

static const double no_floats[1]; /* a slice of no elements has an address all the same */
static const uint32_t no_numbers[1];
static const double roofline[5] = {0.010, 0.011, 0.013, 0.016, 0.020}, positions[2] = {0.9, 0.5}, loaded[3] = {0.0, 3.0, 5.0};
static latchmeander_rates rates = {.peak = 1e12, .bw = 1e9, .kv_delta = 0.0};

static void plan(latchmeander_settings settings, latchmeander_ask ask, const double *draws, size_t draws_len, const uint32_t *indices,
                 size_t indices_len) {
    ask.rates = rates, ask.rows = table.rows, ask.depth = bank.depth, ask.rounds = bank.rows;
    keep();
    latchmeander_planned made =
        latchmeander_plan(settings, ask, positions, 2, roofline, 5, h.depths, 8, h.batches, 8, h.seconds, 8, loaded, 3, h.bank_commits, 8,
                          h.signals, 32, h.curve, 5, draws, draws_len, indices, indices_len, h.words, WORDS, h.drafts, MOST, h.commits, MOST);
    printf("%.2f worker %lu policy %u%s: ", ask.end, (unsigned long)ask.b, settings.policy,
           settings.prices == LATCHMEANDER_PRICES_BRIDGED ? " bridged" : "");
    if (made.refusal) {
        refused(made.refusal);
        return;
    }
    printf("draws %lu, slots %lu", (unsigned long)made.used, (unsigned long)made.weighed);
    for (uint32_t i = 0; i < ask.sequences; i++)
        printf(", %u of %u accepted", latchmeander_accepted(h.drafts[i], true, h.commits[i]), h.drafts[i]);
    printf("\n");
}

/* Two sequences whose rounds are the bank's, with the table's prices. */
static void plan_pair(latchmeander_settings settings, uint64_t worker, double end, uint32_t first, uint32_t second) {
    uint32_t rounds[2] = {first, second};
    latchmeander_ask ask = {.a = 7, .b = worker, .end = end, .sequences = 2, .source = LATCHMEANDER_TABLE};
    plan(settings, ask, no_floats, 0, rounds, 2);
}

/* ---- What is held ---- */

static void show_worker(uint64_t worker) {
    latchmeander_record r = latchmeander_worker(h.words, WORDS, 7, worker);
    printf("worker %lu: held %lu, width %lu, rounds %lu, stall %.6f\n", (unsigned long)worker, (unsigned long)r.held,
           (unsigned long)r.width, (unsigned long)r.rounds, r.stall);
}

/* How much of the draft survived; of no draft there is no share. */
static void show_share(double committed, double draft) {
    if (draft > 0.0)
        printf("survived %u%%\n", (unsigned)(100.0 * committed / draft + 0.5));
    else
        printf("survived -\n");
}

static void show_series(void) {
    uint64_t seconds[8];
    double drafts[8], batches[8], committed[8];
    latchmeander_count series = latchmeander_series(h.words, WORDS, seconds, 8, drafts, 8, batches, 8, committed, 8);
    for (uint64_t i = 0; i < series.count; i++) {
        printf("  second %lu: mean draft %.6f, mean batch %.6f, mean committed %.6f, ", (unsigned long)seconds[i], drafts[i], batches[i],
               committed[i]);
        show_share(committed[i], drafts[i]);
    }
    printf("  seconds %lu, workers %lu, can be withdrawn %lu, day figure %.6f\n",
           (unsigned long)latchmeander_seconds_held(h.words, WORDS).count, (unsigned long)latchmeander_workers_held(h.words, WORDS).count,
           (unsigned long)latchmeander_available(h.words, WORDS).count, latchmeander_day_figure(h.words, WORDS).value);
}

static void withdraw(void) {
    keep();
    uint64_t refusal = latchmeander_withdraw(h.words, WORDS);
    printf("withdraw: ");
    if (refusal)
        refused(refusal);
    else
        printf("done\n");
}

/* ---- The day ---- */

static void read_texts(void) {
    read_bank("commits,a0,a1\n1,0.5,0.25\nx,0.5,0.25\n");
    bank = read_bank("commits,a0,a1,a2,a3\n4,0.95,0.93,0.91,0.90\n2,0.90,0.80,0.40,0.20\n0,0.30,0.20,0.10,0.05\n"
                     "3,0.90,0.85,0.80,0.50\n");
    read_table("batch_size,num_draft_tokens,step_seconds\n2,1,0\n");
    table = read_table("batch_size,num_draft_tokens,step_seconds\n2,1,0.010\n2,2,0.011\n2,3,0.0125\n2,5,0.016\n"
                       "8,1,0.012\n");
}

/* A worker changes its width at most every second round, by one candidate, and is charged 5 ms. Depth 3 was not measured: no candidate. */
static void plan_morning(latchmeander_settings gated) {
    plan_pair(gated, 1, 32400.50, 0, 3);
    plan_pair(gated, 2, 32400.75, 1, 2);
    plan_pair(gated, 1, 32401.25, 2, 2);
    plan_pair(gated, 1, 32401.50, 2, 2);
    show_worker(1);
    printf("collected %.6f\n", latchmeander_collect(h.words, WORDS, 7, 1).value);
    printf("collected of an unknown worker %.6f\n", latchmeander_collect(h.words, WORDS, 1, 7).value);
    show_series();
}

/* The gate in both price modes: depth 3 was not measured, so by default a draft of 4 is kept whole, and bridged it can be given back. */
static void plan_bridged(latchmeander_settings settings) {
    plan_pair(settings, 2, 43199.25, 0, 3);
    settings.prices = LATCHMEANDER_PRICES_BRIDGED;
    plan_pair(settings, 2, 43199.50, 0, 3);
}

/* The other policies and models, and a head as the drafter; too few draws, a source of prices that is none, no sequences. */
static void plan_noon(latchmeander_settings gated) {
    static const double draws[8] = {0.25, 0.5, 0.75, 0.9, 0.1, 0.2, 0.3, 0.95};
    latchmeander_settings settings = gated;
    latchmeander_ask ask = {.a = 7, .b = 2, .end = 43200.0, .sequences = 1, .source = LATCHMEANDER_ROOFLINE};
    settings.policy = LATCHMEANDER_GATED_BUDGET;
    plan_pair(settings, 2, 43199.0, 0, 2);
    plan_bridged(settings);
    settings.model = LATCHMEANDER_CONSTANT, settings.alpha = 0.8, settings.policy = LATCHMEANDER_FIXED;
    plan(settings, ask, draws, 8, no_numbers, 0);
    settings.policy = LATCHMEANDER_GOODPUT_BUDGET, ask.sequences = 2;
    plan(settings, ask, draws, 8, no_numbers, 0);
    plan(settings, ask, draws, 5, no_numbers, 0);
    ask.source = 2;
    plan(settings, ask, draws, 8, no_numbers, 0);
    ask.source = LATCHMEANDER_ROOFLINE, ask.sequences = 0;
    plan(settings, ask, draws, 8, no_numbers, 0);
    ask.sequences = 2, settings.drafter = LATCHMEANDER_AUTOREGRESSIVE, settings.dense_params = 1e6, settings.expert_params = 1e6;
    settings.experts_per_tok = 2, settings.shared_experts = 1;
    plan(settings, ask, draws, 8, no_numbers, 0);
    ask.sequences = 1, ask.end = 43201.0, settings.model = LATCHMEANDER_PER_POSITION, settings.policy = LATCHMEANDER_FIXED;
    plan(settings, ask, draws, 8, no_numbers, 0);
}

/* What a host may get wrong is refused; then everything is taken back. */
static void plan_evening(latchmeander_settings gated) {
    latchmeander_settings wrong = gated;
    plan_pair(gated, 1, 72000.0, 0, 4);
    wrong.policy = 4;
    plan_pair(wrong, 1, 72000.0, 0, 3);
    wrong.policy = LATCHMEANDER_FIXED, wrong.prices = 2;
    plan_pair(wrong, 1, 72000.0, 0, 3);
    wrong.prices = LATCHMEANDER_PRICES_DEFAULT, wrong.cost_ms = -1.0;
    plan_pair(wrong, 1, 72000.0, 0, 3);
    wrong = gated, wrong.gamma = 65;
    plan_pair(wrong, 1, 72000.0, 0, 3);
    rates.kv_delta = 2e9;
    plan_pair(gated, 1, 72000.0, 0, 3);
    rates.kv_delta = 0.0;
    show_series();
    for (int i = 0; i < 8; i++) withdraw();
    show_worker(1);
    withdraw();
    show_worker(1);
    show_series();
    for (int i = 0; i < 4; i++) withdraw();
    show_series();
}

/* How long until a width settles by the table's prices; 0 rounds where it does not, or is refused. */
static uint64_t settles(latchmeander_settings settings, uint32_t width, uint32_t target, size_t room) {
    latchmeander_ask ask = {.source = LATCHMEANDER_TABLE, .rows = table.rows, .depth = bank.depth};
    keep();
    latchmeander_settling s =
        latchmeander_settles(settings, ask, no_floats, 0, h.depths, 8, h.batches, 8, h.seconds, 8, width, target, h.widths, room);
    printf("from %u to %u: ", width, target);
    if (s.refusal) {
        refused(s.refusal);
        return 0;
    }
    printf("settles %lu, rounds %lu, walks %lu, width %lu", (unsigned long)s.settles, (unsigned long)s.rounds, (unsigned long)s.walks,
           (unsigned long)s.width);
    for (uint64_t i = 0; i < s.walks; i++) printf("%s %u", i ? "" : ", through", h.widths[i]);
    printf("\n");
    faults += s.settles == LATCHMEANDER_WITHIN && h.widths[s.walks - 1] != target;
    return s.rounds;
}

/* A worker at width 4 whose plans want depth 1 from now on: how long that takes, and then so many plans. Then what never settles, what is free
 * and what is refused. */
static void settle(latchmeander_settings gated) {
    latchmeander_settings other = gated;
    plan_pair(gated, 3, 79200.0, 0, 3);
    uint64_t rounds = settles(gated, 4, 1, WALKS);
    for (uint64_t i = 0; i < rounds; i++) plan_pair(gated, 3, 79201.0 + (double)i, 2, 2);
    show_worker(3);
    faults += latchmeander_worker(h.words, WORDS, 7, 3).width != 1;
    settles(gated, 4, 3, WALKS);
    other.max_step = 0;
    settles(other, 3, 0, WALKS);
    other.cooldown_rounds = 1, other.steps = LATCHMEANDER_UNLIMITED, other.cost_ms = 0.0;
    settles(other, 4, 0, WALKS);
    settles(gated, 4, 0, WALKS - 1);
    settles(gated, 65, 0, WALKS);
}

/* What each kind of drafter takes for widths 4 and 2, and a call that is refused. */
static void time_drafters(latchmeander_settings settings) {
    static const uint32_t widths[2] = {4, 2};
    rates.bw = 1e12;
    settings.dense_params = 1e9, settings.expert_params = 1e8, settings.params = 6e8, settings.block = 8;
    settings.num_experts = 8, settings.experts_per_tok = 2, settings.shared_experts = 1;
    for (settings.drafter = LATCHMEANDER_FRACTION; settings.drafter <= LATCHMEANDER_BLOCK_PARALLEL; settings.drafter++)
        printf("drafter %u takes %.6f\n", settings.drafter, latchmeander_drafter_seconds(settings, rates, 0.016, widths, 2, loaded, 3).value);
    settings.drafter = LATCHMEANDER_AUTOREGRESSIVE, settings.num_experts = 1000001;
    keep();
    printf("too many experts: ");
    refused(latchmeander_drafter_seconds(settings, rates, 0.016, widths, 2, loaded, 3).refusal);
}

int main(void) {
    latchmeander_settings gated = {.gamma = 4, .policy = LATCHMEANDER_GATED_AGGREGATE, .model = LATCHMEANDER_TRACE,
                                   .drafter = LATCHMEANDER_FRACTION, .frac = 0.05,
                                   .cooldown_rounds = 2, .steps = LATCHMEANDER_AT_MOST, .max_step = 1, .cost_ms = 5.0};
    printf("version %lu\n", (unsigned long)latchmeander_version());
    if (latchmeander_version() != LATCHMEANDER_VERSION) return 2;
    memset(&h, 0x5a, sizeof h); /* what the words hold before they are a planner does not matter */
    keep();
    printf("a word too few: ");
    refused(latchmeander_fresh(h.words, latchmeander_room() - 1));
    printf("fresh: %lu, in %lu words\n", (unsigned long)latchmeander_fresh(h.words, WORDS), (unsigned long)latchmeander_room());
    read_texts();
    plan_morning(gated);
    plan_noon(gated);
    plan_evening(gated);
    settle(gated);
    time_drafters(gated);
    return faults != 0;
}
