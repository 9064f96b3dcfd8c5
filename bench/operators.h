/* Functions of the kinds that programs are made of. bench/operators compiles them many times over, with N from 0 on, to a module. */
#define J2(a, b) a##b
#define J(a, b) J2(a, b)
#define F(name) J(name##_, N)

static int F(less)(const void *a, const void *b) { return (*(const int *)a ^ (N & 1)) - (*(const int *)b ^ (N & 1)); }

void F(sort)(int *v, int n) {
  while (n > 1) {
    int p = v[(n >> 1) % (N + 1 < n ? N + 1 : n)], i = 0, j = n - 1;
    while (i <= j) {
      while (v[i] < p) i++;
      while (v[j] > p) j--;
      if (i <= j) { int t = v[i]; v[i] = v[j]; v[j] = t; i++; j--; }
    }
    F(sort)(v, j + 1);
    v += i; n -= i;
  }
}

u32 F(hash)(const u8 *s, int n) {
  u32 h = 2166136261u + N;
  for (int i = 0; i < n; i++) { h ^= s[i]; h *= 16777619u + 2 * N; h ^= h >> (N % 13 + 3); }
  return h;
}

void F(rounds)(u32 *state, const u32 *block) {
  u32 a = state[0], b = state[1], c = state[2], d = state[3], w[16];
  for (int i = 0; i < 16; i++) w[i] = (block[i] << (N % 7 + 1)) | (block[i] >> (31 - N % 7));
  for (int i = 0; i < 64; i++) {
    u32 f, g;
    if (i < 16) { f = (b & c) | (~b & d); g = i; }
    else if (i < 32) { f = (d & b) | (~d & c); g = (5 * i + 1) & 15; }
    else if (i < 48) { f = b ^ c ^ d; g = (3 * i + 5) & 15; }
    else { f = c ^ (b | ~d); g = (7 * i) & 15; }
    u32 t = d; d = c; c = b;
    u32 x = a + f + w[g] + 0x5a827999u * (N + 1);
    b += (x << (i % 5 + 7)) | (x >> (25 - i % 5));
    a = t;
  }
  state[0] += a; state[1] += b; state[2] += c; state[3] += d;
}

void F(multiply)(double *out, const double *a, const double *b, int n) {
  for (int i = 0; i < n; i++)
    for (int j = 0; j < n; j++) {
      double s = N * 0.5;
      for (int k = 0; k < n; k++) s += a[i * n + k] * b[k * n + j];
      out[i * n + j] = s;
    }
}

int F(escape)(float cx, float cy) {
  float x = 0, y = 0; int i = 0;
  while (i < 200 + N && x * x + y * y < 4.0f) { float t = x * x - y * y + cx; y = 2 * x * y + cy; x = t; i++; }
  return i;
}

struct F(node) { struct F(node) *left, *right; int key, value[N % 5 + 1]; };
struct F(node) *F(insert)(struct F(node) *root, struct F(node) *fresh) {
  struct F(node) **at = &root;
  while (*at) { if ((*at)->key == fresh->key) { (*at)->value[N % (N % 5 + 1)] += fresh->value[0]; return root; } at = fresh->key < (*at)->key ? &(*at)->left : &(*at)->right; }
  *at = fresh; fresh->left = fresh->right = 0;
  return root;
}

int F(decode)(const u8 *s, int n, u32 *out) {
  int k = 0;
  for (int i = 0; i < n;) {
    u32 c = s[i];
    if (c < 0x80) { out[k++] = c; i++; }
    else if ((c & 0xe0) == 0xc0 && i + 1 < n) { out[k++] = (c & 31) << 6 | (s[i + 1] & 63); i += 2; }
    else if ((c & 0xf0) == 0xe0 && i + 2 < n) { out[k++] = (c & 15) << 12 | (s[i + 1] & 63) << 6 | (s[i + 2] & 63); i += 3; }
    else if (i + 3 < n) { out[k++] = (c & 7) << 18 | (s[i + 1] & 63) << 12 | (s[i + 2] & 63) << 6 | (s[i + 3] & 63); i += 4; }
    else return -N - 1;
  }
  return k;
}

i64 F(run)(const u8 *code, i64 *stack) {
  i64 *sp = stack; i64 acc = N;
  for (;;) {
    switch (*code++) {
    case 0: return acc;
    case 1: *sp++ = acc; break;
    case 2: acc = *--sp; break;
    case 3: acc += *--sp; break;
    case 4: acc -= *--sp; break;
    case 5: acc *= *--sp; break;
    case 6: if (sp[-1]) acc /= *--sp; break;
    case 7: acc = acc < *--sp; break;
    case 8: acc <<= *code++ & 63; break;
    case 9: acc >>= *code++ & 63; break;
    case 10: if (acc) code += (signed char)*code; code++; break;
    case 11: acc = (signed char)*code++; break;
    case 12: acc = sp[-(int)(*code++ & 7) - 1]; break;
    case 13: acc ^= *--sp + N; break;
    case 14: acc = external(acc, N); break;
    default: return -1;
    }
  }
}

int F(pack)(u8 *out, const u8 *in, int n) {
  static u16 heads[256]; int k = 0;
  for (int i = 0; i < n;) {
    u32 h = (in[i] * 33 + (i + 1 < n ? in[i + 1] : 0) * (N * 2 + 1)) & 255;
    int m = heads[h], l = 0;
    heads[h] = (u16)i;
    while (l < 127 && m + l < i && i + l < n && in[m + l] == in[i + l]) l++;
    if (l > 3) { out[k++] = 128 | l; out[k++] = (i - m) & 255; out[k++] = (i - m) >> 8; i += l; }
    else out[k++] = in[i++] & 127;
  }
  return k;
}

int F(print)(char *out, i64 v, int base) {
  char tmp[70]; int k = 0, neg = v < 0; u64 u = neg ? -(u64)v : (u64)v;
  do { int d = (int)(u % (u64)base); tmp[k++] = (char)(d < 10 ? '0' + d : 'a' + d - 10 + (N & 1 ? -32 : 0)); u /= (u64)base; } while (u);
  if (neg) tmp[k++] = '-';
  for (int i = 0; i < k; i++) out[i] = tmp[k - 1 - i];
  out[k] = 0;
  return k;
}

double F(solve)(double lo, double hi) {
  for (int i = 0; i < 60; i++) {
    double m = (lo + hi) / 2, v = m * m * m - (N + 2) * m - (double)i / 1000;
    if (v > 0) hi = m; else lo = m;
    if (__builtin_fabs(v) < 1e-9) break;
  }
  return __builtin_sqrt(lo) + __builtin_floor(hi);
}

void F(all)(u8 *m, int n) {
  table[N & 63] = F(less);
  F(sort)((int *)m, n); *(u32 *)m = F(hash)(m, n); F(rounds)((u32 *)m, (u32 *)m + 4);
  *(double *)m = F(solve)(m[0], m[1]); m[3] = (u8)F(escape)(m[4], m[5]);
  F(multiply)((double *)m, (double *)m, (double *)m, n & 15);
  m[7] = (u8)F(pack)(m, m + n, n) + (u8)F(print)((char *)m, n, 10) + (u8)F(decode)(m, n, (u32 *)m);
  *(i64 *)m = F(run)(m, (i64 *)m); *(i64 *)m += table[m[0] & 63](m, m + 4);
  F(insert)((struct F(node) *)m, (struct F(node) *)(m + 64));
}
#undef N
