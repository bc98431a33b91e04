/*
 * Runs the arbiter that is synthesised from arbiter.dc for so many instants, in an environment that asks by chance, and lets the observer of the
 * same requirement watch both:
 *
 *     dcvalid synth arbiter.dc --inputs 2 | tail -n +2 > controller.c
 *     dcvalid c arbiter.dc > observer.c
 *     cc -o arbiter controller_use.c controller.c observer.c
 *     ./arbiter 20
 */
#include <stdio.h>
#include <stdlib.h>

void controller_reset(void);
int controller_step(int v_ask_a, int v_ask_b);
void observer_reset(void);
int observer_step(int v_ask_a, int v_ask_b, int v_grant_a, int v_grant_b);

int main(int count, char **words)
{
  long instants = count > 1 ? atol(words[1]) : 20;
  long instant;

  controller_reset();
  observer_reset();
  puts("ask_a ask_b  grant_a grant_b");
  for (instant = 0; instant < instants; instant++) {
    int ask_a = rand() % 4 != 0;
    int ask_b = rand() % 4 != 0;
    /* the first output is the highest bit */
    int outputs = controller_step(ask_a, ask_b);
    int grant_a = outputs / 2;
    int grant_b = outputs % 2;

    printf("    %d     %d        %d       %d\n", ask_a, ask_b, grant_a, grant_b);
    if (!observer_step(ask_a, ask_b, grant_a, grant_b)) {
      printf("broken at instant %ld\n", instant);
      return 1;
    }
  }
  printf("kept for %ld instants\n", instants);
  return 0;
}
