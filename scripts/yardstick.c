/* The yardstick for reading: one pass over a text in memory that finds its tokens and numbers its identifiers by a hash table. It builds
 * no tree, checks nothing and refuses nothing. Prints the least seconds of some rounds.
 *     cc -O2 yardstick.c -o yardstick && yardstick FILE ROUNDS */
#include <stdint.h>
#include <stdio.h>
#include <stdlib.h>
#include <string.h>
#include <time.h>

enum { SLOTS = 1 << 20 };
struct name { const char *at; uint32_t len, number; };
static struct name table[SLOTS];

static double now(void) {
  struct timespec t;
  clock_gettime(CLOCK_MONOTONIC, &t);
  return t.tv_sec + t.tv_nsec / 1e9;
}

static int is_letter(int c) { return (c | 32) >= 'a' && (c | 32) <= 'z' || c == '_'; }
static int is_digit(int c) { return c >= '0' && c <= '9'; }

static uint32_t number_of(const char *at, uint32_t len, uint32_t *names) {
  uint32_t hash = 2166136261u;
  for (uint32_t i = 0; i < len; i++) hash = (hash ^ (unsigned char)at[i]) * 16777619u;
  uint32_t slot = (hash ^ hash >> 15) % SLOTS;
  while (table[slot].len && (table[slot].len != len || memcmp(table[slot].at, at, len))) slot = (slot + 1) % SLOTS;
  if (!table[slot].len) table[slot] = (struct name){at, len, (*names)++};
  return table[slot].number;
}

static size_t tokens_of(const char *s, const char *end, uint32_t *out) {
  size_t tokens = 0;
  uint32_t names = 0;
  while (s < end) {
    if (*s == ' ' || *s == '\n' || *s == '\t' || *s == '\r' || *s == '\f') s++;
    else if (*s == '/' && s[1] == '/') while (s < end && *s != '\n') s++;
    else if (is_letter(*s)) {
      const char *from = s;
      while (is_letter(*s) || is_digit(*s) || *s == '$') s++;
      out[tokens++] = number_of(from, s - from, &names);
    } else if (is_digit(*s)) {
      while (is_letter(*s) || is_digit(*s) || *s == '\'') s++;
      out[tokens++] = UINT32_MAX;
    } else out[tokens++] = (unsigned char)*s++;
  }
  return tokens;
}

int main(int argc, char **argv) {
  FILE *file = argc == 3 ? fopen(argv[1], "rb") : NULL;
  if (!file) return 2;
  fseek(file, 0, SEEK_END);
  size_t len = ftell(file);
  rewind(file);
  char *text = calloc(len + 2, 1);
  uint32_t *out = malloc((len + 1) * sizeof *out);
  if (fread(text, 1, len, file) != len) return 2;
  double best = 1e9;
  size_t tokens = 0;
  for (int round = 0; round < atoi(argv[2]); round++) {
    memset(table, 0, sizeof table);
    double start = now();
    tokens = tokens_of(text, text + len, out);
    double took = now() - start;
    if (took < best) best = took;
  }
  printf("%.6f %zu\n", best, tokens);
  return 0;
}
