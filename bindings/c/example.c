/* Ten steps of a cooling rod of eight cells, each with its error norm, stages s, passes k and scaled radius r. Build and run:
 *   bash bindings/library capi
 *   cc -std=c11 bindings/c/example.c target/staticlib/libcapi.a -o target/example && target/example
 */
#include "stabilized.h"
#include <stdio.h>

enum { N = 8 };

static void heat_flow(double *derivative, const double *state) {
  for (int i = 0; i < N; i++) {
    double left = i == 0 ? 0.0 : state[i - 1];
    double right = i == N - 1 ? 0.0 : state[i + 1];
    derivative[i] = 1000.0 * (left - 2.0 * state[i] + right);
  }
}

/* The engine, and what is lent to it. */
typedef struct {
  stabilized_record record;
  uint64_t evaluations, attempts;
  double area[STABILIZED_VECTORS * N];
} engine;

/* Brings derivatives until the engine asks for no more. */
static stabilized_answer run(engine *e, stabilized_answer answer) {
  while (answer.code == STABILIZED_EVALUATE) {
    double derivative[N];
    heat_flow(derivative, e->area + answer.number * N);
    answer = stabilized_reply(&e->record.wholes, &e->record.doubles, &e->evaluations, &e->attempts, e->area,
                              STABILIZED_VECTORS * N, derivative, N);
  }
  return answer;
}

int main(void) {
  static engine e; /* all zeros */
  double state[N] = {0, 0, 100, 100, 100, 100, 0, 0};
  double time = 0.0, step = 0.0005;
  stabilized_wholes *wholes = &e.record.wholes;
  stabilized_doubles *doubles = &e.record.doubles;

  int environment = stabilized_environment();
  if (environment != 0) {
    printf("not the floating-point environment of the proofs: %d\n", environment);
    return 1;
  }
  stabilized_answer answer = stabilized_start(wholes, doubles, e.area, STABILIZED_VECTORS * N, STABILIZED_RKL2, N, state, N, time);
  answer = run(&e, answer);
  for (int i = 0; i < 10 && answer.code == STABILIZED_READY; i++) {
    answer = stabilized_attempt(wholes, doubles, e.area, STABILIZED_VECTORS * N, time, step, 1e-3, 1e-3, 1);
    answer = run(&e, answer);
    if (answer.code != STABILIZED_FINISHED) break;
    printf("t = %.4f  middle %9.5f  norm %.4f  s %llu  k %llu  r %.4f\n", time + step,
           e.area[STABILIZED_CANDIDATE * N + N / 2], answer.norm, (unsigned long long)answer.stages,
           (unsigned long long)answer.passes, answer.scaled_radius);
    time += step;
    answer = stabilized_accept(wholes, doubles, e.area, STABILIZED_VECTORS * N);
  }
  if (answer.code == STABILIZED_REFUSED) {
    printf("turned away with %u\n", (unsigned)answer.number);
    return 1;
  }
  printf("%llu evaluations, %llu attempts\n", (unsigned long long)e.evaluations, (unsigned long long)e.attempts);
  return 0;
}
