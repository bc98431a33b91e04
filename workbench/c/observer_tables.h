/*
 * Observers as constant tables: the types and the two functions that every observer of a program shares.
 *
 * A requirement's tables are a file of its own, which `./ask tables` writes. A program may watch any number of requirements, and
 * each of them any number of times: what an observer remembers is one instance of four to twelve bytes. Nothing is allocated.
 *
 *     static observer_instance door;
 *
 *     observer_tables_reset(&door, &door_tables);
 *     ..
 *     if (observer_tables_step(&door, letter) == 0) { the behaviour so far breaks the requirement }
 *
 * A letter has a bit for each variable: the header of the tables names them.
 */
#ifndef OBSERVER_TABLES_H
#define OBSERVER_TABLES_H

/* A state, or a node behind the states. Tables with more than 65,535 of both need the wide form, in all files of a program. */
#ifdef OBSERVER_TABLES_WIDE
typedef unsigned long observer_place;
#else
typedef unsigned short observer_place;
#endif

/*
 * The automaton. Places below `states` are states; a place p that is none is the node p - states. From a state the observer goes
 * to rows[state], and from a node to high[node] where the node's variable is true, and to low[node] where it is false. The nodes
 * of variable i have the places from first[i] up to the next larger of these numbers: nodes of the last variable come first.
 * Bit s % 8 of accepts[s / 8] is 1 where a behaviour that ends in state s satisfies the requirement.
 */
typedef struct {
  unsigned int variables;
  observer_place states;
  const observer_place *first;
  const observer_place *rows;
  const observer_place *high;
  const observer_place *low;
  const unsigned char *accepts;
} observer_tables;

/* What an observer remembers between two instants. */
typedef struct {
  const observer_tables *tables;
  observer_place state;
} observer_instance;

/* Begins a behaviour: no instant is read yet. */
void observer_tables_reset(observer_instance *instance, const observer_tables *tables);

/*
 * Reads one instant, in which bit i of the letter is 1 where variable i is true. Returns 1 where the behaviour so far satisfies the
 * requirement, and else 0. It takes one round for each variable, whatever the tables hold.
 */
int observer_tables_step(observer_instance *instance, unsigned int letter);

#endif
