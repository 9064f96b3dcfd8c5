/* A program with what compiled modules are made of: imports, exports, memory, data, globals, a table of functions, structures, switches,
   loops over bytes, numbers of 32 and 64 bits and floats. tests/modules/make --compile makes clang-O0.wasm and clang-O2.wasm of it. */
typedef unsigned char u8;
typedef unsigned long long u64;
struct account { u8 kind; short branch; int count; u64 total; float rate; double sum; struct account *next; };
typedef long long (*rule)(struct account *, int);

extern int ask(int, double);
extern void tell(const char *, u64);

static struct account first = {1, -2, 3, 4, 0.5f, 6.25, 0};
struct account *last = &first;
const char names[] = "none\0kept\0spent";
int steps;

void *copy(u8 *to, const u8 *from, unsigned n) {
  for (unsigned i = 0; i < n; i++) to[i] = from[i];
  return to;
}

void *fill(u8 *to, u8 with, unsigned n) {
  while (n--) to[n] = with;
  return to;
}

static long long keep(struct account *a, int n) { a->total += n; return a->total - steps; }
static long long spend(struct account *a, int n) { return (u64)n > a->total ? -1 : (long long)(a->total -= n); }
static long long interest(struct account *a, int n) {
  a->sum = a->sum * (1 + a->rate) - n / 3.0;
  return (long long)a->sum;
}
rule rules[] = {keep, spend, interest};

long long apply(int code, struct account *a, int n) {
  struct account before = *a;
  steps++;
  switch (code) {
  case 0: case 1: case 2: return rules[code](a, n);
  case 3: while (n > 0 && a) { before.total ^= a->total << (n & 63); n -= a->count; a = a->next; } break;
  case 4: tell(names + (n & 7), before.total); return ask(n, before.sum) % 7;
  case 5: copy((u8 *)a, (const u8 *)last, sizeof *a); break;
  case 6: return a->branch < 0 ? -a->branch : a->branch | n << 3;
  default: fill((u8 *)a, 0, sizeof *a); return (int)(before.rate * 100) + (unsigned)n / 10;
  }
  return apply(code - 3, last, (int)(before.total >> 5));
}
