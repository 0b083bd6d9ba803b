/* Stabilized Runge-Kutta steps (RKC, RKL1, RKL2, RKG1, RKG2, RKMC2, TSRKC2) by a proved engine, libcapi.a.
 *
 * Every call is lent the record, in two parts that it reads and writes in place, and answers. While the answer is
 * STABILIZED_EVALUATE, work out the derivative of vector `number` of the area at `time` and bring it with
 * stabilized_reply. No call has a precondition beyond these two: pointers are valid for the counts beside them, those to a
 * part of the record and to a counter for one each; and what a call writes overlaps nothing else that it is handed, so the
 * two parts of the record, the two counters and the area overlap neither each other nor the state nor the derivative. (The
 * parts of one stabilized_record do not.) Whatever else it is handed, it answers, and a call that is turned away says so by
 * its number (docs/REFUSALS.md).
 *
 * The results are those of IEEE 754's default environment: to nearest, ties to even, subnormals kept, exceptions masked.
 * In another one, such as a program linked with -ffast-math starts in, bits differ, and an exception that is not masked
 * is raised as a signal (docs/DIFFERENCES.md). No call tests it; for rounding and subnormals
 * stabilized_environment does, below.
 */
#ifndef STABILIZED_H
#define STABILIZED_H

#include <float.h>
#include <stddef.h>
#include <stdint.h>

#ifdef __cplusplus
extern "C" {
#endif

/* The area holds 11 vectors of n doubles, n from 1 to 512, and TSRKC2's one more, the last below. */
enum {
  STABILIZED_FIRST_DERIVATIVE = 0,
  STABILIZED_LAST_DERIVATIVE = 1,
  STABILIZED_DERIVATIVE = 2,
  STABILIZED_PREVIOUS_TWO = 3,
  STABILIZED_PREVIOUS_ONE = 4,
  STABILIZED_NEXT_STAGE = 5,
  STABILIZED_EIGENVECTOR = 6,
  STABILIZED_PERTURBED_STATE = 7,
  STABILIZED_PERTURBED_DERIVATIVE = 8,
  STABILIZED_STATE = 9,
  STABILIZED_CANDIDATE = 10,
  STABILIZED_OLDER_STATE = 11, /* of TSRKC2 alone */
  STABILIZED_VECTORS = 11,
  STABILIZED_TSRKC2_VECTORS = 12
};

/* The families. */
enum {
  STABILIZED_RKC = 1,
  STABILIZED_RKL1 = 2,
  STABILIZED_RKL2 = 3,
  STABILIZED_RKG1 = 4,
  STABILIZED_RKG2 = 5,
  STABILIZED_RKMC2 = 6,
  STABILIZED_TSRKC2 = 7
};

/* How many vectors the area of a family holds. */
static inline size_t stabilized_vectors(uint64_t family) {
  return family == STABILIZED_TSRKC2 ? STABILIZED_TSRKC2_VECTORS : STABILIZED_VECTORS;
}

/* The phases of a record. */
enum {
  STABILIZED_PHASE_EMPTY = 0,
  STABILIZED_PHASE_FIRST = 1,
  STABILIZED_PHASE_READY = 2,
  STABILIZED_PHASE_PASS = 3,
  STABILIZED_PHASE_STAGE = 4,
  STABILIZED_PHASE_CANDIDATE = 5,
  STABILIZED_PHASE_FINISHED = 6,
  STABILIZED_PHASE_CALLBACK = 7
};

/* The answers' codes. */
enum {
  STABILIZED_EVALUATE = 1, /* number: the vector, time */
  STABILIZED_FINISHED = 2, /* norm, stages, passes, scaled_radius */
  STABILIZED_READY = 3,
  STABILIZED_REFUSED = 4,  /* number: the cause, below */
  STABILIZED_EMPTY = 5
};

/* Why a call is turned away. 1 to 8 leave everything as it was. */
enum {
  STABILIZED_BAD_FAMILY = 1,
  STABILIZED_BAD_DIMENSION = 2,
  STABILIZED_BAD_LENGTH = 3,
  STABILIZED_BAD_PHASE = 4,
  STABILIZED_BAD_STATE = 5,
  STABILIZED_BAD_TIME_OR_STEP = 6,
  STABILIZED_BAD_TOLERANCE = 7,
  STABILIZED_COUNTERS_FULL = 8,
  STABILIZED_BAD_DERIVATIVE = 9,
  STABILIZED_BAD_CANDIDATE = 10,
  STABILIZED_TOO_MANY_STAGES = 11 /* TSRKC2 would need more than 1000 */
};

/* What is wrong with a floating-point environment. */
enum {
  STABILIZED_ROUNDING = 1,  /* sums are not rounded to nearest, ties to even */
  STABILIZED_SUBNORMALS = 2 /* subnormals are flushed to zero or taken as zero */
};

/* The record: what the engine keeps beside the area, its whole numbers and its doubles. All zeros is one to begin with. A
 * call that is turned away with 1 to 8 leaves it as it was. The doubles are the attempt's arguments, the power iteration's
 * (perturbation, previous_radius, scaled_radius), what the stages carry on, and with a history the last accepted step. The
 * stages carry theta; RKC's, RKMC2's and TSRKC2's also omega and value; RKC's and RKMC2's b; RKC's alone first and second;
 * TSRKC2's alone gain. What one of these three does not use, it sets to 0 and carries along. They stand in the order in which
 * the engine reads them fastest, the last two as they came.
 *
 * stages, pass and scaled_radius are s, k and r of a finished answer from that answer until the next attempt that is taken:
 * accept, a callback or a start with its reply, abandon and every call that is turned away keep them. Such an attempt sets
 * pass to 1 and scaled_radius to 0; stages stands until its own stages begin. An attempt that is abandoned or turned away with
 * 9, 10 or 11 leaves the three as they stood at that call; they are then not those of a finished answer.
 *
 * TSRKC2 has a history from an accept on: previous_accepted_step is then the step that was accepted, and the area's last vector
 * the state before it. A start, an accept with a callback and an abandon end it, in every family, and let step and vector
 * stand. */
typedef struct {
  uint64_t family;
  uint64_t n;
  uint64_t phase;
  uint64_t adaptive; /* 0 is a no, all else a yes */
  uint64_t pass;     /* of the power iteration; k after it */
  uint64_t stages;   /* s */
  uint64_t stage;
  uint64_t history; /* 0 is none */
} stabilized_wholes;

typedef struct {
  double time;
  double step;
  double value_previous;
  double absolute_tolerance;
  double first_previous;
  double relative_tolerance;
  double second_previous;
  double perturbation;
  double value_previous_two;
  double previous_radius;
  double first_previous_two;
  double scaled_radius;
  double second_previous_two;
  double b_previous;
  double omega_one;
  double theta_previous;
  double b_previous_two;
  double theta_previous_two;
  double omega_zero;
  double gain;
  double previous_accepted_step;
} stabilized_doubles;

typedef struct {
  stabilized_wholes wholes;
  stabilized_doubles doubles;
} stabilized_record;

/* An answer: its code, and what that code names above. All else is 0. The evaluations of a finished attempt are s + k; s was
 * chosen for r, the step's size times 1.2 times the radius of the last pass. */
typedef struct {
  uint64_t code;
  uint64_t number;      /* of the vector to evaluate, or of the cause */
  double norm;          /* of the error; 0 without adaptive */
  uint64_t stages;      /* s */
  uint64_t passes;      /* k, those of the power iteration, 1 to 12 */
  double scaled_radius; /* r, which may be infinite, or a NaN, for which s is the least count */
  double time;          /* to evaluate the vector at */
} stabilized_answer;

/* Begins anew, in any phase: keeps the state and asks for the first derivative. */
stabilized_answer stabilized_start(stabilized_wholes *wholes, stabilized_doubles *doubles, double *area,
                                   size_t area_length, uint64_t family, uint64_t n, const double *state,
                                   size_t state_length, double time);

/* Steps from the kept state; when ready or after a finished attempt. */
stabilized_answer stabilized_attempt(stabilized_wholes *wholes, stabilized_doubles *doubles, double *area,
                                     size_t area_length, double time, double step, double absolute_tolerance,
                                     double relative_tolerance, uint64_t adaptive);

/* Brings the derivative that was asked for. It counts as an evaluation, and the last of an attempt as a finished attempt. */
stabilized_answer stabilized_reply(stabilized_wholes *wholes, stabilized_doubles *doubles, uint64_t *evaluations,
                                   uint64_t *finished_attempts, double *area, size_t area_length,
                                   const double *derivative, size_t derivative_length);

/* After a finished attempt: the candidate becomes the kept state. TSRKC2 keeps the state and the step before. */
stabilized_answer stabilized_accept(stabilized_wholes *wholes, stabilized_doubles *doubles, double *area,
                                    size_t area_length);

/* After a finished attempt: another state and time are kept, and its derivative is asked for. */
stabilized_answer stabilized_accept_with_callback(stabilized_wholes *wholes, stabilized_doubles *doubles, double *area,
                                                  size_t area_length, const double *state, size_t state_length,
                                                  double time);

/* While an evaluation is pending: ends it uncounted. Then only start is allowed. */
stabilized_answer stabilized_abandon(stabilized_wholes *wholes, stabilized_doubles *doubles, const double *area,
                                     size_t area_length);

/* Whether this thread's floating-point environment is the one that the engine is proved for: 0, or the sum of what is wrong.
 * To be called before start, in the thread that makes the calls. A few operations tell, made with the unit that the caller is
 * compiled for. Each stands between volatile reads and a volatile store, so that no compiler works it out beforehand, not even
 * with -ffast-math. Exceptions that are not masked cannot be found in this way: the check itself would trap. */
static inline int stabilized_environment(void) {
  volatile double even = 1.0, odd = 1.0 + DBL_EPSILON, half = DBL_EPSILON / 2.0, least_normal = DBL_MIN;
  /* Two sums halfway between doubles. The even one is below the first and above the second: upward rounding misses it at
   * the first, downward and toward zero at the second. */
  volatile double below = even + half, above = odd + half;
  /* To a subnormal and back: lost if it is flushed when worked out, or taken as zero when used. */
  volatile double subnormal = least_normal / 2.0;
  volatile double back = subnormal * 2.0;
  int nearest = below == 1.0 && above == 1.0 + 2.0 * DBL_EPSILON;
  return (nearest ? 0 : STABILIZED_ROUNDING) + (back == DBL_MIN ? 0 : STABILIZED_SUBNORMALS);
}

#ifdef __cplusplus
}
#endif

#endif
