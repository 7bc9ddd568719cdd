/* Latchmeander: plans how many tokens each decode sequence drafts in its next step.
 *
 * Link with liblatchmeander.a (`tools/native latchmeander FOLDER`), x86-64 Linux. docs/HOSTING.md says how, and what each call assumes.
 *
 * Ownership. Everything is the host's. A call uses what it is lent until it returns and keeps no address; the planner is the words of
 * `storage` and nothing else. No call allocates, opens a file, prints or ends the program.
 *
 * Version. The words of a storage belong to one version of the library: words that another one wrote are not to be lent.
 *
 * Slices. A slice crosses as an address and a count of elements. The address is never null, is aligned for the element, and has that
 * many elements, also where the count is 0 (then any aligned address that is not null serves). What is lent to be written overlaps
 * nothing else that is lent to the same call, and nothing else uses it until the call returns: one storage, one call at a time.
 *
 * Refusals. `refusal` is 0 for none, else the number of the first fault. Then nothing that was lent is changed, and the other figures
 * of the answer are 0, but for the row of a text. The numbers:
 *    1 a byte above 127              8 step_seconds not above zero     15 a value out of range
 *    2 empty text                    9 num_draft_tokens is 0           16 a lent buffer too short
 *    3 wrong header                 10 no data rows                    17 a new worker, and 256 are held
 *    4 wrong number of fields       11 a size passed                   18 a new second, and 4,096 are held
 *    5 malformed whole number       12 a setting out of range          19 1,000,000 steps in the second
 *    6 malformed decimal            13 a needed draw is absent         20 no rows left (no call here gives it)
 *    7 decimal too long             14 a draw or index out of range    21 nothing to withdraw
 */
#ifndef LATCHMEANDER_H
#define LATCHMEANDER_H

#include <stdbool.h>
#include <stddef.h>
#include <stdint.h>

#ifdef __cplusplus
extern "C" {
#endif

/* The library that this header declares. Compare it with latchmeander_version() before the first other call: a library of another version has
 * other words in the storage, other records or other calls, and nothing else would tell. */
#define LATCHMEANDER_VERSION 2

/* The version of the library that is linked. Refuses nothing. */
uint64_t latchmeander_version(void);

/* Numbers of cases. A number that stands for no case is refused 12, before all else. */
enum { LATCHMEANDER_FIXED, LATCHMEANDER_GOODPUT_BUDGET, LATCHMEANDER_GATED_BUDGET, LATCHMEANDER_GATED_AGGREGATE }; /* policy */
enum { LATCHMEANDER_CONSTANT, LATCHMEANDER_PER_POSITION, LATCHMEANDER_TRACE };                                      /* model */
enum { LATCHMEANDER_FRACTION, LATCHMEANDER_AUTOREGRESSIVE, LATCHMEANDER_BLOCK_PARALLEL };                           /* drafter */
enum { LATCHMEANDER_UNLIMITED, LATCHMEANDER_AT_MOST };                                                              /* steps */
enum { LATCHMEANDER_PRICES_DEFAULT, LATCHMEANDER_PRICES_BRIDGED };                                                  /* prices */
enum { LATCHMEANDER_ROOFLINE, LATCHMEANDER_TABLE };                                                                 /* source */

/* Of the fields that belong to a case, only those of the case that is named are read. */
typedef struct {
    double alpha;             /* CONSTANT */
    double cost_ms;           /* what a changed width costs */
    double frac;              /* FRACTION; no drafter is a fraction of 0.0 */
    double dense_params;      /* AUTOREGRESSIVE */
    double expert_params;     /* AUTOREGRESSIVE */
    double params;            /* BLOCK_PARALLEL */
    uint32_t gamma;           /* the deepest draft */
    uint32_t policy;
    uint32_t model;
    uint32_t drafter;
    uint32_t cooldown_rounds; /* rounds between two walks */
    uint32_t steps;
    uint32_t max_step;        /* AT_MOST */
    uint32_t num_experts;     /* AUTOREGRESSIVE */
    uint32_t experts_per_tok; /* AUTOREGRESSIVE */
    uint32_t shared_experts;  /* AUTOREGRESSIVE */
    uint32_t block;           /* BLOCK_PARALLEL */
    uint32_t prices;          /* how a gate prices between depths: by the two around, or by the nearest measured ones (BRIDGED) */
} latchmeander_settings;

typedef struct {
    double peak;
    double bw;
    double kv_delta;
} latchmeander_rates;

typedef struct {
    uint64_t a, b;            /* the worker */
    double end;               /* when the step ends, in seconds */
    latchmeander_rates rates;
    size_t rows;              /* of the cost table */
    uint32_t sequences;       /* 0 is an empty plan, which changes nothing */
    uint32_t source;          /* where the prices come from */
    uint32_t depth, rounds;   /* of the bank */
} latchmeander_ask;

typedef struct {
    uint64_t refusal;
    size_t used;              /* draws */
    size_t weighed;           /* slots */
} latchmeander_planned;

typedef struct {
    uint64_t refusal;
    uint64_t count;
} latchmeander_count;

typedef struct {
    uint64_t refusal;
    double value;
} latchmeander_figure;

typedef struct {
    uint64_t refusal;
    uint64_t held;            /* 1, or 0 for a worker that is not held, whose record is zeros */
    uint64_t width;
    uint64_t rounds;
    double stall;             /* seconds */
} latchmeander_record;

typedef struct {
    uint64_t refusal;
    uint64_t row;             /* of the refusal: lines from 1, or 0 */
    uint32_t rows;            /* rounds of a bank, rows of a table */
    uint32_t depth;           /* of a bank; 0 for a table */
} latchmeander_read;

/* What becomes of a width; 0 where it is refused. */
enum { LATCHMEANDER_WITHIN = 1, LATCHMEANDER_AT_ONCE, LATCHMEANDER_NO_STEP, LATCHMEANDER_NO_CANDIDATE };

typedef struct {
    uint64_t refusal;
    uint64_t settles;         /* which of these */
    uint64_t rounds;          /* WITHIN: the width is the target after at most so many rounds, */
    uint64_t walks;           /* by so many walks */
    uint64_t width;           /* NO_STEP, NO_CANDIDATE: where it stays */
} latchmeander_settling;

/* ---- The storage: lent whole to each call, refused 16 where it has fewer words than latchmeander_room() answers ---- */

/* How many words a planner takes. Refuses nothing. */
size_t latchmeander_room(void);

/* Makes the first words of `storage` an empty planner, whatever they held; words beyond the room stay. Answers the refusal: 16. */
uint64_t latchmeander_fresh(uint64_t *storage, size_t storage_len);

/* A worker's stall in seconds, cleared, which is a change; for a worker that is not held 0.0, and no change. Refuses 16. */
latchmeander_figure latchmeander_collect(uint64_t *storage, size_t storage_len, uint64_t a, uint64_t b);

/* Takes the newest change that stands back; up to 64 can be taken back. Answers the refusal: 16, 21. */
uint64_t latchmeander_withdraw(uint64_t *storage, size_t storage_len);

/* How many changes can be withdrawn; how many seconds and how many workers are held. Each refuses 16. */
latchmeander_count latchmeander_available(const uint64_t *storage, size_t storage_len);
latchmeander_count latchmeander_seconds_held(const uint64_t *storage, size_t storage_len);
latchmeander_count latchmeander_workers_held(const uint64_t *storage, size_t storage_len);

/* The seconds held, ascending, with the means of each: drafts by sequence, sequences by step, and committed by sequence, which counts of each
 * sequence what latchmeander_accepted answers. They stand at the fronts of the four buffers; the rest of them stays. The count is how many.
 * Refuses 16, also where one of the buffers is shorter than that. */
latchmeander_count latchmeander_series(const uint64_t *storage, size_t storage_len, uint64_t *seconds, size_t seconds_len,
                                       double *mean_drafts, size_t mean_drafts_len, double *mean_batches, size_t mean_batches_len,
                                       double *mean_committed, size_t mean_committed_len);

/* The mean of the seconds' mean drafts; 0.0 where none is held. Refuses 16. */
latchmeander_figure latchmeander_day_figure(const uint64_t *storage, size_t storage_len);

/* A worker's record. Refuses 16. */
latchmeander_record latchmeander_worker(const uint64_t *storage, size_t storage_len, uint64_t a, uint64_t b);

/* ---- A plan ---- */

/* The drafts and the commits of the sequences are written to the fronts of `drafts` and `commits`, which have room for them; the plan is
 * added to its second, and its worker's record is kept, in `storage`. The lists that it reads: the values of PER_POSITION; the roofline's
 * prices by depth; the columns of the cost table; the loaded experts by batch; the bank's commits, signals and curve; the draws, or for
 * TRACE the indices of rounds. What a plan does not use may have length 0.
 * Refuses the first of 12 (a number of a case that stands for none before all else), 11, 16, 15, 13 or 14, 15 of the drawn rounds'
 * signals, 17, 18, 19. A plan of 0 sequences is refused 12 or nothing. */
latchmeander_planned latchmeander_plan(latchmeander_settings settings, latchmeander_ask ask, const double *positions, size_t positions_len,
                                       const double *roofline, size_t roofline_len, const uint32_t *depths, size_t depths_len,
                                       const uint32_t *batches, size_t batches_len, const double *seconds, size_t seconds_len,
                                       const double *loaded, size_t loaded_len, const uint32_t *bank_commits, size_t bank_commits_len,
                                       const double *signals, size_t signals_len, const double *bank_curve, size_t bank_curve_len,
                                       const double *draws, size_t draws_len, const uint32_t *indices, size_t indices_len,
                                       uint64_t *storage, size_t storage_len, uint32_t *drafts, size_t drafts_len,
                                       uint32_t *commits, size_t commits_len);

/* How long until the `width` of a worker that is held is `target`, while every GatedAggregate plan for it has these settings, prices at the
 * same depths and `target` as its best depth. A round is such a plan that is accepted and has a sequence; other calls may stand between,
 * but no withdrawal.
 * WITHIN: the width is the target after at most `rounds` rounds, and stays. The width after each walk is written to the front of `widths`,
 * which has room for 64; the rest of it stays. AT_ONCE: the switching is free, and each plan takes its best depth. NO_STEP: max_step is 0.
 * NO_CANDIDATE: the target has no price. With these two the first walk brings the width to `width`, where it stays.
 * Of the settings gamma, the model and the switching are used, and every number of a case is judged; of the ask the source, the rows and,
 * for TRACE, the depth. Refuses the first of 12, 11, 16, 15. */
latchmeander_settling latchmeander_settles(latchmeander_settings settings, latchmeander_ask ask, const double *roofline, size_t roofline_len,
                                           const uint32_t *depths, size_t depths_len, const uint32_t *batches, size_t batches_len,
                                           const double *seconds, size_t seconds_len, uint32_t width, uint32_t target,
                                           uint32_t *widths, size_t widths_len);

/* The seconds that the drafter of the settings takes, where each sequence has its own width and the verify costs `verify_c`. Of the settings
 * the drafter alone is used, and every number of a case is judged. Refuses the first of 12, 11, 16, 15. */
latchmeander_figure latchmeander_drafter_seconds(latchmeander_settings settings, latchmeander_rates rates, double verify_c,
                                                 const uint32_t *widths, size_t widths_len, const double *loaded, size_t loaded_len);

/* How many of a sequence's drafts a verify accepts: where a round was planned, the fewer of its commits and the draft; else none.
 * Refuses nothing. */
uint32_t latchmeander_accepted(uint32_t draft, bool planned, uint32_t commits);

/* ---- Texts, as bytes that the host has read ---- */

/* A bank of rounds, for latchmeander_plan: `rows` commits, `rows` times `depth` signals and `depth` + 1 entries of the curve at the fronts of
 * the buffers. Refuses the first of 1 to 7, 10, 11, 16, with its row. */
latchmeander_read latchmeander_bank_read(const uint8_t *text, size_t text_len, uint32_t *commits, size_t commits_len,
                                         double *signals, size_t signals_len, double *curve, size_t curve_len);

/* A cost table, for latchmeander_plan: `rows` rows in order at the fronts of the columns. The columns have room for every row of the text,
 * also for those that are dropped. Refuses the first of 1 to 11, 16, with its row. */
latchmeander_read latchmeander_table_read(const uint8_t *text, size_t text_len, uint32_t *depths, size_t depths_len,
                                          uint32_t *batches, size_t batches_len, double *seconds, size_t seconds_len);

#ifdef __cplusplus
}
#endif

#endif
