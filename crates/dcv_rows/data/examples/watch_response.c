/*
 * Watches a system by the observer of response.dc. It reads an instant a line, `request` and `grant` as two digits, and tells where the
 * requirement is broken first, instants being counted from 0:
 *
 *     dcvalid c response.dc > observer.c
 *     cc -o watch watch_response.c observer.c
 *     printf '10\n00\n00\n00\n' | ./watch
 */
#include <stdio.h>

void observer_reset(void);
int observer_step(int v_request, int v_grant);

int main(void)
{
  long instant = 0;
  int request, grant;

  observer_reset();
  while (scanf("%1d%1d", &request, &grant) == 2) {
    if (!observer_step(request, grant)) {
      printf("broken at instant %ld\n", instant);
      return 1;
    }
    instant = instant + 1;
  }
  printf("kept for %ld instants\n", instant);
  return 0;
}
