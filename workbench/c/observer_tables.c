/* Observers as constant tables: how an instant is read. */
#include "observer_tables.h"

void observer_tables_reset(observer_instance *instance, const observer_tables *tables)
{
  instance->tables = tables;
  instance->state = 0u;
}

int observer_tables_step(observer_instance *instance, unsigned int letter)
{
  const observer_tables *tables = instance->tables;
  observer_place place = tables->rows[instance->state];
  unsigned int rest = letter;
  unsigned int variable;
  unsigned long state;
  unsigned long accepts;
  int answer = 0;

  for (variable = 0u; variable < tables->variables; variable++) {
    if (place >= tables->first[variable]) {
      if ((rest & 1u) != 0u) {
        place = tables->high[place - tables->states];
      } else {
        place = tables->low[place - tables->states];
      }
    }
    rest >>= 1;
  }
  instance->state = place;
  state = place;
  accepts = tables->accepts[state / 8u];
  if (((accepts >> (state % 8u)) & 1u) != 0u) {
    answer = 1;
  }
  return answer;
}
