/* The benchmark's caller in C: a rod of n cells, whose derivatives are brought until the engine asks for no more. */
#include "stabilized.h"

/* The model, and what is lent to the engine: the family's area and room for a derivative. */
typedef struct {
  double rate;
  size_t n;
  size_t area_length;
  stabilized_record record;
  uint64_t evaluations, attempts;
  double *area, *derivative;
} rod;

static void flow(const rod *r, const double *state) {
  size_t n = r->n;
  for (size_t i = 0; i < n; i++) {
    double left = i == 0 ? 0.0 : state[i - 1];
    double right = i + 1 == n ? 0.0 : state[i + 1];
    r->derivative[i] = r->rate * (left - 2.0 * state[i] + right);
  }
}

static stabilized_answer run(rod *r, stabilized_answer answer) {
  while (answer.code == STABILIZED_EVALUATE) {
    flow(r, r->area + answer.number * r->n);
    answer = stabilized_reply(&r->record.wholes, &r->record.doubles, &r->evaluations, &r->attempts, r->area,
                              r->area_length, r->derivative, r->n);
  }
  return answer;
}

stabilized_answer rod_start(rod *r, uint64_t family, const double *state) {
  r->area_length = stabilized_vectors(family) * r->n;
  return run(r, stabilized_start(&r->record.wholes, &r->record.doubles, r->area, r->area_length, family, r->n, state, r->n,
                                 0.0));
}

stabilized_answer rod_attempt(rod *r, double step, double absolute_tolerance, double relative_tolerance) {
  return run(r, stabilized_attempt(&r->record.wholes, &r->record.doubles, r->area, r->area_length, 0.0, step,
                                   absolute_tolerance, relative_tolerance, 1));
}

stabilized_answer rod_accept(rod *r) {
  return stabilized_accept(&r->record.wholes, &r->record.doubles, r->area, r->area_length);
}
