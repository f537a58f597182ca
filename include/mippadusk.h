/* Mippadusk: the C interface. Link target/staticlib/libmippadusk.a, which ./archive builds.
 *
 * A slice is a pointer and a length, next to each other: of bytes in bytes, of words in words. A pointer is never null and is
 * aligned for its type, also where the length is 0. A slice that is written overlaps no other slice of the call.
 *
 * A function answers 0, or its refusal: number * 2^32 + place. The numbers are MIP_SETTINGS and so on, below; the place is that of
 * the first faulty record, counted from 0, and 0 where no record is at fault. A refusal writes nothing. No other input is asked of
 * the caller: each function takes any bytes, words and numbers, and either answers or refuses.
 *
 * A delay is at most 4,000,000,000 ns, in a frame, an interval and a list, and as DL, Jt, most mean delay, most delay and most range: it
 * fits uint32_t but not int32_t, and the sum of two may not fit 32 bits. Whoever records frames records one that comes later as lost. An
 * interval has at most 1,024 frames. The sum of a period's delays fits uint64_t, and may not fit int64_t. A record beyond these limits breaks
 * its own rules and is refused, also one that was written when an interval could have 4,096 frames.
 *
 * No function allocates, keeps what it was lent, or has state of its own. They use up to 256 KiB of the caller's stack. */
#ifndef MIPPADUSK_H
#define MIPPADUSK_H

#include <stddef.h>
#include <stdint.h>

#ifdef __cplusplus
extern "C" {
#endif

#define MIP_SETTINGS 1
#define MIP_LENGTH 2
#define MIP_ROOM 3
#define MIP_FULL 4
#define MIP_FIELD 5
#define MIP_OUTSIDE 6
#define MIP_ORDER 7
#define MIP_MISMATCH 8
#define MIP_PAIRS 9

/* The two halves of an answer that is not 0. */
#define MIP_NUMBER(word) ((uint32_t)((word) >> 32))
#define MIP_PLACE(word) ((uint32_t)(word))

/* From the frames of one interval to its record.
 *
 * settings     a settings record, 64 bytes; the length of an interval, DL and Jt are taken from it
 * frames       frame records of 16 bytes each, at most 1,024, in strictly increasing time; none is fine
 * number       the interval's number, below 3,000,000: a frame belongs to it when number * length <= time < (number + 1) * length
 * maintenance  0 or 1
 * out, at      the interval record is written into the 48 bytes of `out` from byte `at` on; the bytes before and behind stay as
 *              they are
 *
 * Refusals, in this order: MIP_SETTINGS; MIP_LENGTH where `frames` is not a whole number of records; MIP_ROOM where `out` has fewer
 * than 48 bytes from `at` on; MIP_FULL over 1,024 frames; MIP_FIELD for the number or for maintenance; then frame by frame, at its
 * place, MIP_FIELD where it breaks its own rules, MIP_OUTSIDE where its time is not in the interval, MIP_ORDER where its time is
 * not later than that of the frame before. */
uint64_t mip_interval(const uint8_t *settings, size_t settings_len,
                      const uint8_t *frames, size_t frames_len,
                      uint64_t number, uint64_t maintenance,
                      uint8_t *out, size_t out_len, size_t at);

/* The labels of a stretch of intervals from 0.
 *
 * settings   a settings record, 64 bytes; its label settings are taken
 * intervals  interval records of 48 bytes each, numbered 0, 1, 2 and so on; none is fine
 * out, at    two bytes for each interval are written into `out` from byte `at` on, its loss label and then its composite label:
 *            0 unavailable, 1 available, 2 undecided; the bytes before and behind stay as they are
 *
 * Refusals, in this order: MIP_SETTINGS; MIP_LENGTH where `intervals` is not a whole number of records; MIP_ROOM where `out` has too
 * few bytes from `at` on, or `at` lies past its end; then record by record, at its place, MIP_FIELD where it breaks its own rules,
 * MIP_ORDER where its number is not its place. Nothing is written before all records are known to be good. */
uint64_t mip_labels(const uint8_t *settings, size_t settings_len,
                    const uint8_t *intervals, size_t intervals_len,
                    uint8_t *out, size_t out_len, size_t at);

/* The running evaluator of a circuit is 13 words that the caller keeps and lends to each step:
 *
 *   0 to 7  the label settings: length of an interval in ms, n, p, weights, C, U, DL, Jt
 *   8       the number of intervals fed
 *   9, 10   loss track: the label settled last, 1 available or 0 unavailable, and how many are undecided
 *   11, 12  composite track: the same
 *
 * mip_start writes an evaluator with nothing fed.
 *
 * settings   a settings record, 64 bytes; its label settings are taken
 * evaluator  room for 13 words or more; words behind the 13th stay as they are
 *
 * Refusals, in this order: MIP_SETTINGS; MIP_ROOM where `evaluator` is shorter than 13 words. */
uint64_t mip_start(const uint8_t *settings, size_t settings_len,
                   uint64_t *evaluator, size_t evaluator_len);

/* Feeds an evaluator the next interval: it is altered where it stands.
 *
 * evaluator  the words above; words behind the 13th stay as they are
 * interval   an interval record, 48 bytes, whose number is the number fed so far
 * settled    room for 4 words or more; words behind the fourth stay as they are:
 *              0, 1  loss track: how many labels the step settled, and which: 0 unavailable, 1 available, 2 where it settled none
 *              2, 3  composite track: the same
 *            The labels settled are those of the intervals that were undecided first, and they all agree.
 *
 * Refusals, in this order, all at place 0: MIP_LENGTH where `interval` is not 48 bytes; MIP_LENGTH where `evaluator` is shorter than 13
 * words; MIP_ROOM where `settled` is shorter than 4 words; MIP_FIELD where the evaluator has invalid settings, more than 3,000,000 fed,
 * or a track that no sequence of so many intervals leaves; MIP_FIELD where the record breaks its own rules; MIP_ORDER where its
 * number is not the number fed. */
uint64_t mip_step(uint64_t *evaluator, size_t evaluator_len,
                  const uint8_t *interval, size_t interval_len,
                  uint64_t *settled, size_t settled_len);

/* The summary of a stretch of intervals: 1,024 bytes, whose layout and rules stand in docs/RECORDS.md. Its first two words, u32 and
 * little-endian, are the stretch's first number and the number after its last; the label settings are the 24 bytes behind them.
 *
 * settings   a settings record, 64 bytes; its label settings are taken, and the summary depends on no other field
 * first      the number of the first interval, at most 3,000,000
 * intervals  interval records of 48 bytes each, numbered first, first + 1 and so on; with none, the summary is an empty one at `first`
 * out, at    the summary is written into the 1,024 bytes of `out` from byte `at` on; the bytes before and behind stay as they are
 *
 * Refusals, in this order: MIP_SETTINGS; MIP_LENGTH where `intervals` is not a whole number of records; MIP_ROOM where `out` has fewer
 * than 1,024 bytes from `at` on; MIP_FIELD where `first` is above 3,000,000; then record by record, at its place, MIP_FIELD where it
 * breaks its own rules, MIP_ORDER where its number is not the next. */
uint64_t mip_summary(const uint8_t *settings, size_t settings_len,
                     uint64_t first,
                     const uint8_t *intervals, size_t intervals_len,
                     uint8_t *out, size_t out_len, size_t at);

/* The summary of two adjoining stretches, from theirs. Of summaries that mip_summary or mip_join wrote it is byte for byte the one that
 * mip_summary makes of all the intervals at once, however a stretch was cut and in whatever order its parts are joined. An empty summary at
 * either end changes nothing.
 *
 * left, right  valid summaries, 1,024 bytes each, of equal label settings; `right` begins where `left` ends. A summary is valid where it
 *              meets the rules of docs/RECORDS.md, as every one does that mip_summary or mip_join writes. One that was written when
 *              an interval could have 4,096 frames is valid, and means what it meant, where each load in it (docs/RECORDS.md) has at
 *              most 1,024 frames for each interval that it counts
 * out, at      the summary of both is written into the 1,024 bytes of `out` from byte `at` on; the bytes before and behind stay as
 *              they are
 *
 * Refusals, in this order: MIP_LENGTH where `left` or `right` is not 1,024 bytes; MIP_ROOM where `out` has fewer than 1,024 bytes from
 * `at` on; MIP_FIELD at 0 where `left` breaks a rule, at 1 where `right` does; MIP_MISMATCH at 1 where their label settings differ;
 * MIP_ORDER at 1 where `right` does not begin where `left` ends. So valid summaries that adjoin and have equal label settings are never
 * refused, given room, whoever wrote them; and what is written is valid again. */
uint64_t mip_join(const uint8_t *left, size_t left_len,
                  const uint8_t *right, size_t right_len,
                  uint8_t *out, size_t out_len, size_t at);

/* The report of a period: the middle one of three adjoining summaries.
 *
 * summaries  three summaries of 1,024 bytes each, of equal label settings: what is known before the period, from 0 on, the period, and
 *            what is known behind it; each may be empty. The labels are those of all that is known, what is counted is the period's
 * figures    room for 15 words or more; words behind the fifteenth stay as they are:
 *              0       the period's length
 *              1       its intervals in maintenance; these are in none of the figures below
 *              2 to 4  available, unavailable and undecided intervals
 *              5, 6    high loss intervals, and their runs of length p or more (0 where p is 0)
 *              7 to 9  of available intervals: frames sent, frames lost, and the sum of the delays in ns
 *              10, 11  of available intervals: the least and the most delay in ns, 0 where nothing was delivered
 *              12 to 14  by the composite indicator: acceptable, unacceptable and undecided intervals
 *
 * Refusals, in this order: MIP_LENGTH where `summaries` is not 3,072 bytes; MIP_ROOM where `figures` is shorter than 15 words; MIP_FIELD
 * at the first summary that breaks a rule; MIP_MISMATCH at the first whose label settings are not those of the one before; MIP_ORDER at 0
 * where the first does not start at 0, then at the first that does not start where the one before ends. */
uint64_t mip_report(const uint8_t *summaries, size_t summaries_len,
                    uint64_t *figures, size_t figures_len);

/* The verdicts of a set of ordered pairs against the objectives of the settings.
 *
 * settings   a settings record, 64 bytes
 * pairs      the number of pairs, 1 to 64
 * summaries  three summaries for each pair, as for mip_report, of the label settings of `settings`; pair behind pair
 * verdicts   room for 6 words or more; words behind the sixth stay as they are. 0 is not met, 1 met, 2 not yet: for
 *              0  availability: available * 1,000,000 >= least availability * (available + unavailable)
 *              1  composite: acceptable * 1,000,000 >= least composite * (acceptable + unacceptable)
 *              2  loss: lost * 1,000,000 <= most loss * sent
 *              3  mean delay: sum of the delays <= most mean delay * (sent - lost)
 *              4  high loss intervals: their number <= most high loss intervals
 *              5  runs: their number <= most runs
 *            The objectives are the numbers of 32 bits at bytes 24, 28, 32, 36, 40 and 44 of the settings.
 *            Of each pair each is asked twice, with those undecided intervals of the period that are not in maintenance taken all as
 *            available, and all as unavailable: for the composite those that mip_report counts in its word 14, taken as acceptable and as
 *            unacceptable, for all others those that it counts in its word 4. Taken as available they are in every figure: their frames
 *            and delays count, and those of high loss (lost * 1,000,000 > C * sent) are high loss intervals and make runs. Taken as
 *            unavailable they are in the number of these alone. So mip_report tells too little of them to judge loss, mean delay, high
 *            loss intervals and runs while there are any.
 *            For a pair each is met where it is met both times, not met where it is met neither time, and else not yet; so with nothing
 *            undecided it is met or not met. For the set each is not met where it is not met for a pair, else not yet where it is not yet
 *            for a pair, else met.
 *
 * Refusals, in this order: MIP_SETTINGS; MIP_PAIRS where `pairs` is 0 or above 64; MIP_LENGTH where `summaries` is not pairs * 3,072
 * bytes; MIP_ROOM where `verdicts` is shorter than 6 words; then pair by pair those of mip_report from MIP_FIELD on, summaries counted
 * through all pairs, and MIP_MISMATCH also at a pair's first summary where its label settings are not those of `settings`. */
uint64_t mip_verdicts(const uint8_t *settings, size_t settings_len,
                      uint64_t pairs,
                      const uint8_t *summaries, size_t summaries_len,
                      uint64_t *verdicts, size_t verdicts_len);

/* Percentile delay and range of a list of delays, in ns, in any order. The list is read and stays as it is.
 *
 * settings   a settings record, 64 bytes; Pr, most delay and most range are taken from it
 * delays     at most 1,000,000 delays, each at most 4,000,000,000 ns; none is fine
 * answers    room for 4 words or more; words behind the fourth stay as they are:
 *              0  the percentile: the least listed delay d with Pr * N <= 1,000,000 * (number of listed delays <= d), 0 with none
 *              1  the range: the percentile less the least delay, 0 with none
 *              2  1 where the percentile is at or below the most delay, else 0
 *              3  1 where the range is at or below the most range, else 0
 *
 * Refusals, in this order: MIP_SETTINGS; MIP_ROOM where `answers` is shorter than 4 words; MIP_FULL over 1,000,000 delays; MIP_FIELD
 * at the first delay above 4,000,000,000. */
uint64_t mip_delays(const uint8_t *settings, size_t settings_len,
                    const uint32_t *delays, size_t delays_len,
                    uint64_t *answers, size_t answers_len);

#ifdef __cplusplus
}
#endif

#endif
