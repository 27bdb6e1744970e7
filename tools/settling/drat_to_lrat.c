/* Turns a refutation in DRAT text, each line of which follows by unit propagation, into LRAT text with the lines that are needed.
 * usage: drat_to_lrat FORMULA PROOF > LRAT     The status is 0, or 1 with one line on standard error.
 * A literal that follows where nothing is assumed gets a clause of its own, so no later line needs the clauses that led to it. */
#include <stdbool.h>
#include <stdint.h>
#include <stdio.h>
#include <stdlib.h>
#define BUCKETS (1u << 20)
#define MIXING 0x9E3779B97F4A7C15u
typedef struct { int *at; size_t count, room; } List;
/* Where a clause's literals and hints stand in the lists of all, and which clause comes next in its bucket. */
typedef struct { size_t first, hints; uint64_t sum; int size, hint_count, next; bool is_gone, is_needed; } Clause;
static List literals, hints, trail, *watches;
static Clause *clauses;
static int clause_count, clause_room, variables, buckets[BUCKETS], *reasons; /* clauses that gave variables their values, or 0 */
static unsigned *marks, mark; /* a variable is marked by `mark`, and done with by what is above */
static signed char *values;
static size_t propagated, top; /* literals of the trail: those that have propagated, and those that follow from nothing */

static void fail(const char *why) { fprintf(stderr, "drat_to_lrat: %s\n", why); exit(1); }
static void *fits(void *found) { if (!found) fail("memory ran out"); return found; }
static void *make(size_t bytes) { return fits(calloc((size_t)variables + 1, bytes)); }
static void push(List *list, int value) {
  if (list->count == list->room) list->at = fits(realloc(list->at, sizeof(int) * (list->room = 2 * list->room + 4)));
  list->at[list->count++] = value;
}
static int *literals_of(int number) { return literals.at + clauses[number].first; }
static List *watching(int literal) { return &watches[literal > 0 ? 2 * literal : 1 - 2 * literal]; }
static int value_of(int literal) { return literal > 0 ? values[literal] : -values[-literal]; }
/* A sum that is the same in every order; clauses that have one sum are taken for one, and at worst a clause is dropped too soon. */
static uint64_t sum_of(const List *line) {
  uint64_t sum = line->count, mixed;
  for (size_t i = 0; i < line->count; i++) mixed = (uint64_t)line->at[i] * MIXING, sum += (mixed ^ mixed >> 32) * MIXING;
  return sum;
}
/* A new clause, whose hints are those that were pushed since it was begun. */
static int add(const List *line, size_t begun) {
  if (clause_count + 2 > clause_room) clauses = fits(realloc(clauses, sizeof(Clause) * (size_t)(clause_room = 2 * clause_room + 1024)));
  int *bucket = &buckets[sum_of(line) % BUCKETS], size = (int)line->count, hint_count = (int)(hints.count - begun);
  clauses[++clause_count] = (Clause){literals.count, begun, sum_of(line), size, hint_count, *bucket, false, false};
  for (size_t i = 0; i < line->count; i++) push(&literals, line->at[i]);
  return *bucket = clause_count;
}
static void assign(int it, int reason) { values[abs(it)] = it > 0 ? 1 : -1, reasons[abs(it)] = reason, push(&trail, it); }
/* Has what follows from the trail follow; the number of a clause that is false, or 0. */
static int propagate(void) {
  int conflict = 0;
  while (!conflict && propagated < trail.count) {
    int literal = -trail.at[propagated++];
    List *found = watching(literal);
    size_t kept = 0;
    for (size_t i = 0; i < found->count; i++) {
      int number = found->at[i], *at = literals_of(number), other = 2, size = clauses[number].size;
      if (clauses[number].is_gone) continue;
      if (!conflict && at[0] == literal) at[0] = at[1], at[1] = literal;
      while (!conflict && value_of(at[0]) <= 0 && other < size && value_of(at[other]) < 0) other++;
      if (!conflict && value_of(at[0]) <= 0 && other < size) { /* it watches another literal from now on */
        push(watching(at[1] = at[other]), number), at[other] = literal;
        continue;
      }
      found->at[kept++] = number;
      if (!conflict && !value_of(at[0])) assign(at[0], number); else if (!conflict && value_of(at[0]) < 0) conflict = number;
    }
    found->count = kept;
  }
  return conflict;
}
/* Adds a clause where another is false: its hints are first clauses of one literal, and then what propagated, in that order. */
static int derive(const List *line, int conflict) {
  static List touched, found;
  size_t begun = hints.count, place = trail.count;
  mark += 2, touched.count = 0;
  for (size_t i = 0; i < line->count; i++) marks[abs(line->at[i])] = mark + 1;
  while (conflict) {
    push(&found, conflict);
    for (int i = 0, variable; i < clauses[conflict].size; i++)
      if (marks[variable = abs(literals_of(conflict)[i])] < mark) marks[variable] = mark, push(&touched, variable);
    for (conflict = 0; place > top && !conflict; place--) {
      int variable = abs(trail.at[place - 1]);
      if (marks[variable] == mark) conflict = reasons[variable], marks[variable]++;
    }
  }
  for (size_t i = 0; i < touched.count; i++) if (marks[touched.at[i]] == mark) push(&hints, reasons[touched.at[i]]);
  while (found.count) push(&hints, found.at[--found.count]);
  return add(line, begun);
}
/* Has a new clause propagate, where nothing is assumed; the number of a clause that is false then, or 0. */
static int attach(int number) {
  int *at = literals_of(number), open = 0, size = clauses[number].size, conflict;
  for (int i = 0, literal = 0; i < size && open < 2; i++) if (value_of(literal = at[i]) >= 0) at[i] = at[open], at[open++] = literal;
  if (!open) return number;
  if (size > 1) push(watching(at[0]), number), push(watching(at[1]), number);
  if (open == 1 && !value_of(at[0])) assign(at[0], number);
  for (conflict = propagate(); !conflict && top < trail.count; top++) {
    int literal = trail.at[top], *reason = &reasons[abs(literal)];
    if (clauses[*reason].size > 1) *reason = derive(&(List){&literal, 1, 1}, *reason);
  }
  return conflict;
}
/* Adds a line of the proof, as `attach` does. */
static int take(const List *line) {
  int conflict = 0;
  for (size_t i = 0; i < line->count && !conflict; i++) {
    if (value_of(line->at[i]) > 0) conflict = reasons[abs(line->at[i])];
    if (!value_of(line->at[i])) assign(-line->at[i], 0);
  }
  if (!conflict && !(conflict = propagate())) fail("a line of the proof follows by no unit propagation");
  int number = derive(line, conflict);
  for (propagated = top; trail.count > top; trail.count--) values[abs(trail.at[trail.count - 1])] = 0;
  return attach(number);
}
/* Has a clause of these literals go. One with a single literal stays, as what follows from nothing does. */
static void drop(const List *line) {
  uint64_t sum = sum_of(line);
  int *link = &buckets[sum % BUCKETS];
  while (*link && clauses[*link].sum != sum) link = &clauses[*link].next;
  if (*link && line->count > 1) clauses[*link].is_gone = true, *link = clauses[*link].next;
}
/* Reads literals up to their 0, and whether `d` stands before them; false at the end. */
static bool read_line(FILE *file, List *line, bool *is_gone) {
  int literal = 0, found, begun = line->count = 0;
  *is_gone = fscanf(file, " d%n", &begun) == 0 && begun;
  while ((found = fscanf(file, "%d", &literal)) == 1 && literal)
    if (abs(literal) > variables) fail("a variable is not the formula's"); else push(line, literal);
  return found == 1;
}
static void print_line(int number, const Clause *it) {
  printf("%d ", number);
  for (int i = 0; i < it->size; i++) printf("%d ", literals_of(number)[i]);
  for (int i = 0; i < it->hint_count; i++) printf(i ? "%d " : "0 %d ", hints.at[it->hints + (size_t)i]);
  printf("0\n");
}
int main(int count, char **words) {
  FILE *file = count == 3 ? fopen(words[1], "r") : NULL, *proof = count == 3 ? fopen(words[2], "r") : NULL;
  List line = {0};
  int formula, conflict = 0;
  bool is_gone;
  if (!file || !proof || fscanf(file, "p cnf %d %d", &variables, &formula) != 2) fail("give a formula and a proof");
  watches = make(2 * sizeof(List)), values = make(1), reasons = make(sizeof(int)), marks = make(sizeof(int));
  for (int i = 0; i < formula && read_line(file, &line, &is_gone); i++) add(&line, 0);
  for (int i = 1; i <= clause_count && i <= formula && !conflict; i++) conflict = attach(i);
  while (!conflict && read_line(proof, &line, &is_gone)) if (is_gone) drop(&line); else conflict = take(&line);
  if (!conflict) fail("the proof ends before the empty clause");
  int last = clauses[conflict].size ? derive(&(List){0}, conflict) : conflict;
  clauses[last].is_needed = true;
  for (Clause *it = &clauses[last]; it > &clauses[formula]; it--)
    for (int i = 0; it->is_needed && i < it->hint_count; i++) clauses[hints.at[it->hints + (size_t)i]].is_needed = true;
  for (int i = formula + 1; i <= last; i++) if (clauses[i].is_needed) print_line(i, &clauses[i]);
  return fflush(stdout) != 0;
}
