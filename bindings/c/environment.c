/* Tries stabilized_environment on x86-64: in the environment that the program starts in, in each rounding mode, and with
 * flush-to-zero and denormals-are-zero. Where the check answers 0, the engine must give the candidate that it gives at first,
 * and another one where it does not. What is wrong is said, and the exit code is 1 then. */
#include "stabilized.h"
#include <fenv.h>
#include <stdio.h>
#include <string.h>
#include <xmmintrin.h>

enum { N = 2, FLUSH_TO_ZERO = 0x8000, DENORMALS_ARE_ZERO = 0x0040 };

/* A step of RKL1 from 1 and 2^-1023 where every derivative is 0: rounding moves the first, a lost subnormal the second. */
static void step(double *candidate) {
  double area[STABILIZED_VECTORS * N] = {0};
  double state[N] = {1.0, DBL_MIN / 2.0}, derivative[N] = {0};
  stabilized_record record = {0};
  stabilized_wholes *wholes = &record.wholes;
  stabilized_doubles *doubles = &record.doubles;
  uint64_t counters[2] = {0};
  size_t length = STABILIZED_VECTORS * N;
  stabilized_answer answer = stabilized_start(wholes, doubles, area, length, STABILIZED_RKL1, N, state, N, 0.0);
  while (answer.code == STABILIZED_EVALUATE || answer.code == STABILIZED_READY)
    answer = answer.code == STABILIZED_READY
                 ? stabilized_attempt(wholes, doubles, area, length, 0.0, 1.0, 1.0, 1.0, 0)
                 : stabilized_reply(wholes, doubles, &counters[0], &counters[1], area, length, derivative, N);
  memcpy(candidate, area + STABILIZED_CANDIDATE * N, N * sizeof(double));
}

static double first[N];
static int wrong = 0;

/* Check and engine in this rounding mode, with these bits of the control register besides; then all is as it was. */
static void try(const char *name, int mode, unsigned bits, int expected) {
  double candidate[N];
  int kept_mode = fegetround();
  fesetround(mode);
  unsigned kept = _mm_getcsr();
  _mm_setcsr(kept | bits);
  int answer = stabilized_environment();
  step(candidate);
  _mm_setcsr(kept);
  fesetround(kept_mode);
  int same = memcmp(candidate, first, sizeof first) == 0;
  if (answer == expected && same == (expected == 0)) return;
  printf("%s: answers %d, should be %d; the candidate is %s\n", name, answer, expected, same ? "the same" : "another");
  wrong = 1;
}

int main(void) {
  unsigned both = FLUSH_TO_ZERO | DENORMALS_ARE_ZERO;
  step(first);
  try("as it starts", FE_TONEAREST, 0, 0);
  try("upward", FE_UPWARD, 0, STABILIZED_ROUNDING);
  try("downward", FE_DOWNWARD, 0, STABILIZED_ROUNDING);
  try("toward zero", FE_TOWARDZERO, 0, STABILIZED_ROUNDING);
  try("flush-to-zero", FE_TONEAREST, FLUSH_TO_ZERO, STABILIZED_SUBNORMALS);
  try("denormals-are-zero", FE_TONEAREST, DENORMALS_ARE_ZERO, STABILIZED_SUBNORMALS);
  try("both", FE_TONEAREST, both, STABILIZED_SUBNORMALS);
  try("upward, both", FE_UPWARD, both, STABILIZED_ROUNDING + STABILIZED_SUBNORMALS);
  try("downward, flush-to-zero", FE_DOWNWARD, FLUSH_TO_ZERO, STABILIZED_ROUNDING + STABILIZED_SUBNORMALS);
  try("as it was", FE_TONEAREST, 0, 0);
  return wrong;
}
