/* The operations on diagrams as a plain C program does them, to be measured beside `dcv_bench`: nodes of 12 bytes, each once,
   found by an open table of places; for each merge a memo of bounded size that forgets the entry that was used least lately;
   renumbering and first letters by place. It takes the same words and tells the same numbers. */
#include <stdint.h>
#include <stdio.h>
#include <stdlib.h>
#include <string.h>
#include <time.h>

enum { LIMIT = 4000000, ENTRIES = 65536 };

/* A function: a leaf with its number, or the place of a node. */
typedef struct {
  uint32_t number;
  uint32_t is_leaf;
} Ref;

typedef struct {
  uint32_t lo, hi;
  uint8_t slot, lo_is_leaf, hi_is_leaf;
} Node;

typedef struct {
  uint8_t slots;
  uint32_t count, room;
  Node *nodes;
  uint32_t *table; /* places plus 1, 0 where there is none */
  uint32_t mask;
} Arena;

static void fail(const char *why) {
  fprintf(stderr, "%s\n", why);
  exit(1);
}

static Ref leaf(uint32_t number) { return (Ref){number, 1}; }
static Ref place(uint32_t number) { return (Ref){number, 0}; }
static int same(Ref a, Ref b) { return a.number == b.number && a.is_leaf == b.is_leaf; }

static uint64_t fold(uint64_t a, uint64_t b) {
  __uint128_t product = (__uint128_t)a * b;
  return (uint64_t)product ^ (uint64_t)(product >> 64);
}

static uint32_t node_hash(const Node *n) {
  uint64_t flags = n->slot | (uint64_t)n->lo_is_leaf << 8 | (uint64_t)n->hi_is_leaf << 16;
  return (uint32_t)fold(((uint64_t)n->lo << 32 | n->hi) ^ 0x243F6A8885A308D3, flags ^ 0x13198A2E03707344);
}

static Arena arena_new(uint8_t slots) { return (Arena){slots, 0, 0, NULL, NULL, 0}; }

static void arena_free(Arena *a) {
  free(a->nodes);
  free(a->table);
}

static void arena_grow(Arena *a) {
  a->room = a->room ? a->room * 2 : 8;
  a->nodes = realloc(a->nodes, a->room * sizeof(Node));
  free(a->table);
  a->mask = a->room * 2 - 1;
  a->table = calloc(a->mask + 1, sizeof(uint32_t));
  if (!a->nodes || !a->table) fail("out of memory");
  for (uint32_t i = 0; i < a->count; i++) {
    uint32_t at = node_hash(&a->nodes[i]) & a->mask;
    while (a->table[at]) at = (at + 1) & a->mask;
    a->table[at] = i + 1;
  }
}

static Ref node(Arena *a, uint8_t slot, Ref lo, Ref hi) {
  if (same(lo, hi)) return lo;
  if (a->count == a->room) arena_grow(a);
  Node n = {lo.number, hi.number, slot, (uint8_t)lo.is_leaf, (uint8_t)hi.is_leaf};
  uint32_t at = node_hash(&n) & a->mask;
  for (; a->table[at]; at = (at + 1) & a->mask) {
    const Node *m = &a->nodes[a->table[at] - 1];
    if (m->lo == n.lo && m->hi == n.hi && m->slot == n.slot && m->lo_is_leaf == n.lo_is_leaf && m->hi_is_leaf == n.hi_is_leaf)
      return place(a->table[at] - 1);
  }
  if (a->count == LIMIT) fail("too many nodes");
  a->nodes[a->count] = n;
  a->table[at] = ++a->count;
  return place(a->count - 1);
}

/* ---- functions */

static uint64_t mixed(uint64_t seed) {
  uint64_t first = seed * 0x9E3779B97F4A7C15;
  uint64_t second = (first ^ (first >> 30)) * 0xBF58476D1CE4E5B9;
  uint64_t third = (second ^ (second >> 27)) * 0x94D049BB133111EB;
  return third ^ (third >> 31);
}

typedef struct {
  int is_random;
  uint64_t seed;
  uint32_t bit;
} Function;

static uint32_t number(Function f, uint8_t slots, uint32_t letter) {
  if (f.is_random) return (uint32_t)(mixed(f.seed ^ letter) >> 63);
  uint32_t half = slots / 2;
  return ((letter >> half) * (letter & ((1u << half) - 1)) >> f.bit) & 1;
}

static Ref build(Arena *a, Function f, uint8_t slot, uint32_t front) {
  if (slot == a->slots) return leaf(number(f, slot, front));
  Ref lo = build(a, f, slot + 1, front * 2);
  Ref hi = build(a, f, slot + 1, front * 2 + 1);
  return node(a, slot, lo, hi);
}

static Ref parity(Arena *a, uint8_t each) {
  Ref even = leaf(0), odd = leaf(1);
  for (int slot = a->slots - 1; slot >= 0; slot--) {
    if (slot % each) continue;
    Ref new_even = node(a, (uint8_t)slot, even, odd), new_odd = node(a, (uint8_t)slot, odd, even);
    even = new_even;
    odd = new_odd;
  }
  return even;
}

/* ---- merging two functions */

/* An entry stands in the chain of its hash, and in a list by last use. Entries are numbers of places plus 1, 0 where there is none. */
typedef struct {
  Ref one, other, result;
  uint32_t next, newer, older;
} Entry;

typedef struct {
  Entry *entries;
  uint32_t *chains;
  uint32_t count, room, newest, oldest;
} Memo;

static void memo_free(Memo *m) {
  free(m->entries);
  free(m->chains);
}

static uint32_t *chain(const Memo *m, Ref one, Ref other) {
  uint64_t key = ((uint64_t)one.number << 32 | other.number) ^ ((uint64_t)one.is_leaf << 63) ^ ((uint64_t)other.is_leaf << 31);
  return &m->chains[fold(key ^ 0x243F6A8885A308D3, 0x13198A2E03707345) & (m->room - 1)];
}

static Entry *entry(const Memo *m, uint32_t number) { return &m->entries[number - 1]; }

static void unlist(Memo *m, Entry *e) {
  if (e->newer) entry(m, e->newer)->older = e->older;
  else m->newest = e->older;
  if (e->older) entry(m, e->older)->newer = e->newer;
  else m->oldest = e->newer;
}

static void list_newest(Memo *m, uint32_t number) {
  Entry *e = entry(m, number);
  e->newer = 0;
  e->older = m->newest;
  if (m->newest) entry(m, m->newest)->newer = number;
  else m->oldest = number;
  m->newest = number;
}

static const Ref *memo_get(Memo *m, Ref one, Ref other) {
  if (!m->room) return NULL;
  for (uint32_t at = *chain(m, one, other); at; at = entry(m, at)->next) {
    Entry *e = entry(m, at);
    if (!same(e->one, one) || !same(e->other, other)) continue;
    unlist(m, e);
    list_newest(m, at);
    return &e->result;
  }
  return NULL;
}

static void memo_grow(Memo *m) {
  m->room = m->room ? m->room * 2 : 8;
  m->entries = realloc(m->entries, m->room * sizeof(Entry));
  free(m->chains);
  m->chains = calloc(m->room, sizeof(uint32_t));
  if (!m->entries || !m->chains) fail("out of memory");
  for (uint32_t at = 1; at <= m->count; at++) {
    uint32_t *first = chain(m, entry(m, at)->one, entry(m, at)->other);
    entry(m, at)->next = *first;
    *first = at;
  }
}

static void forget(Memo *m, uint32_t number) {
  Entry *e = entry(m, number);
  uint32_t *at = chain(m, e->one, e->other);
  while (*at != number) at = &entry(m, *at)->next;
  *at = e->next;
  unlist(m, e);
}

/* The operands have no entry. */
static void memo_put(Memo *m, Ref one, Ref other, Ref result) {
  uint32_t number = m->oldest;
  if (m->count == ENTRIES) forget(m, number);
  else {
    if (m->count == m->room) memo_grow(m);
    number = ++m->count;
  }
  uint32_t *first = chain(m, one, other);
  *entry(m, number) = (Entry){one, other, result, *first, 0, 0};
  *first = number;
  list_newest(m, number);
}

static uint32_t differ(uint32_t one, uint32_t other) { return one != other; }

static uint32_t slot_of(const Arena *from, Ref root) { return root.is_leaf ? from->slots : from->nodes[root.number].slot; }

static void children(const Arena *from, Ref root, uint32_t slot, Ref *lo, Ref *hi) {
  *lo = *hi = root;
  if (root.is_leaf) return;
  const Node *n = &from->nodes[root.number];
  if (n->slot != slot) return;
  *lo = (Ref){n->lo, n->lo_is_leaf};
  *hi = (Ref){n->hi, n->hi_is_leaf};
}

static Ref merge(Arena *to, const Arena *from, Ref one, Ref other, Memo *memo) {
  uint32_t a = slot_of(from, one), b = slot_of(from, other), slot = a < b ? a : b;
  if (slot >= to->slots) return leaf(differ(one.number, other.number));
  const Ref *known = memo_get(memo, one, other);
  if (known) return *known;
  Ref one_lo, one_hi, other_lo, other_hi;
  children(from, one, slot, &one_lo, &one_hi);
  children(from, other, slot, &other_lo, &other_hi);
  Ref lo = merge(to, from, one_lo, other_lo, memo);
  Ref hi = merge(to, from, one_hi, other_hi, memo);
  Ref result = node(to, (uint8_t)slot, lo, hi);
  memo_put(memo, one, other, result);
  return result;
}

static size_t merged(const Arena *from, Ref one, Ref other) {
  Arena to = arena_new(from->slots);
  Memo memo = {NULL, NULL, 0, 0, 0, 0};
  merge(&to, from, one, other, &memo);
  size_t size = to.count;
  memo_free(&memo);
  arena_free(&to);
  return size;
}

/* ---- other numbers */

typedef struct {
  Ref became;
  uint32_t is_known;
} Became;

static Ref renumber(Arena *to, const Arena *from, Ref root, const uint32_t *numbers, Became *became) {
  if (root.is_leaf) return leaf(numbers[root.number]);
  if (became[root.number].is_known) return became[root.number].became;
  Node n = from->nodes[root.number];
  Ref lo = renumber(to, from, (Ref){n.lo, n.lo_is_leaf}, numbers, became);
  Ref hi = renumber(to, from, (Ref){n.hi, n.hi_is_leaf}, numbers, became);
  Ref result = node(to, n.slot, lo, hi);
  became[root.number] = (Became){result, 1};
  return result;
}

static size_t renumbered(const Arena *from, Ref root) {
  static const uint32_t numbers[] = {7, 5};
  Arena to = arena_new(from->slots);
  Became *became = calloc(from->count + 1, sizeof(Became));
  if (!became) fail("out of memory");
  renumber(&to, from, root, numbers, became);
  size_t size = to.count;
  free(became);
  arena_free(&to);
  return size;
}

/* ---- first letters */

typedef struct {
  uint8_t *seen, *number_seen;
  size_t count;
  struct {
    uint32_t number, letter;
  } found[2];
} Search;

static void visit(Search *s, const Arena *from, Ref root, uint32_t letter) {
  if (root.is_leaf) {
    if (s->number_seen[root.number]) return;
    s->number_seen[root.number] = 1;
    s->found[s->count].number = root.number;
    s->found[s->count++].letter = letter;
    return;
  }
  if (s->seen[root.number]) return;
  Node n = from->nodes[root.number];
  visit(s, from, (Ref){n.lo, n.lo_is_leaf}, letter);
  visit(s, from, (Ref){n.hi, n.hi_is_leaf}, letter | 1u << n.slot);
  s->seen[root.number] = 1;
}

static size_t letters(const Arena *from, Ref root) {
  uint8_t numbers[2] = {0, 0};
  Search s = {calloc(from->count + 1, 1), numbers, 0, {{0, 0}, {0, 0}}};
  if (!s.seen) fail("out of memory");
  visit(&s, from, root, 0);
  free(s.seen);
  return s.count;
}

/* ---- cases */

static size_t rebuilt(uint8_t slots) {
  Arena a = arena_new(slots);
  build(&a, (Function){1, (uint64_t)3 << 40, 0}, 0, 0);
  size_t size = a.count;
  arena_free(&a);
  return size;
}

static double processor_time(void) {
  struct timespec now;
  clock_gettime(CLOCK_PROCESS_CPUTIME_ID, &now);
  return (double)now.tv_sec * 1e9 + (double)now.tv_nsec;
}

int main(int count, char **words) {
  if (count < 4) fail("usage: diagrams CASE SLOTS TIMES [timed]");
  const char *name = words[1];
  uint8_t slots = (uint8_t)atoi(words[2]);
  int times = atoi(words[3]);
  int is_random = !strcmp(name, "random") || !strcmp(name, "build");
  int is_parity = !strcmp(name, "parity");
  Arena a = arena_new(slots);
  uint32_t middle = slots / 2;
  Ref one = is_parity ? parity(&a, 1) : build(&a, (Function){is_random, (uint64_t)1 << 40, middle}, 0, 0);
  Ref other = is_parity ? parity(&a, 2) : build(&a, (Function){is_random, (uint64_t)2 << 40, middle - 1}, 0, 0);
  double before = processor_time();
  size_t size = 0;
  for (int i = 0; i < times; i++) {
    if (!strcmp(name, "build")) size = rebuilt(slots);
    else if (!strcmp(name, "remap")) size = renumbered(&a, one);
    else if (!strcmp(name, "letters")) size = letters(&a, one);
    else size = merged(&a, one, other);
  }
  double each = (processor_time() - before) / (times ? times : 1);
  if (count > 4) printf("%zu %.0f\n", size, each);
  else printf("%zu\n", size);
  return 0;
}
