/*
 * Watches the machine by two observers: guard.dc as the program wrote it, and oil.dc as tables. It reads an instant a line, the digits
 * of guard_closed, motor and oil, and ends with status 1 at the first instant at which one of both is broken.
 */
#include <stdio.h>
#include "oil_tables.h"

/* The Makefile gives the functions of each observer a name of their own. */
void guard_reset(void);
int guard_step(int v_guard_closed, int v_motor);

int main(void)
{
  static observer_instance oil;
  long instant;
  int guard_closed, motor, oiled;

  guard_reset();
  observer_tables_reset(&oil, &oil_tables);
  for (instant = 0; scanf("%1d%1d%1d", &guard_closed, &motor, &oiled) == 3; instant++) {
    unsigned int letter = (motor ? OIL_motor : 0u) | (oiled ? OIL_oil : 0u);
    int guard_holds = guard_step(guard_closed, motor);
    int oil_holds = observer_tables_step(&oil, letter);

    if (!guard_holds || !oil_holds) {
      printf("instant %ld: %s is broken\n", instant, guard_holds ? "oil" : "guard");
      return 1;
    }
  }
  printf("both hold at each of %ld instants\n", instant);
  return 0;
}
