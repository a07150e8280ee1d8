// Times the generated traces of crates/ruu_timing/src/tests/generated.rt by the reference program, and prints the
// sum that the test there expects. It is built with the reference program's timing.cpp and structures.cpp.
#include "timing.hpp"
#include <algorithm>
#include <cstdio>

static uint64_t next(uint64_t s) { return s * 6364136223846793005ull + 1442695040888963407ull; }
static uint64_t part(uint64_t d, int place, uint64_t count) { return (d >> place) % count; }
static Class class_at(uint64_t n) {
  if (n <= 21) return Class::Alu;
  if (n <= 25) return Class::Mul;
  if (n <= 28) return Class::Div;
  if (n <= 43) return Class::Load;
  if (n <= 56) return Class::Store;
  return n <= 62 ? Class::Control : Class::Ecall;
}

static int8_t reg(uint64_t n) { return n >= 1 && n <= 8 ? int8_t(n) : int8_t(-1); }

static Marked mark_at(uint64_t d) {
  Marked m;
  m.cls = class_at(part(d, 58, 64));
  m.first = reg(part(d, 54, 16)); m.second = reg(part(d, 50, 16)); m.dest = reg(part(d, 46, 16));
  if (m.cls == Class::Load || m.cls == Class::Store) m.word = uint32_t(part(d, 41, 2) * 1024 + part(d, 36, 2));
  m.stall = part(d, 32, 20) == 0 ? 20 : 0;
  m.latency = uint32_t(part(d, 20, 40) + 1);
  m.mispredicted = part(d, 16, 48) == 0; m.transferred = part(d, 12, 6) == 0;
  return m;
}

static uint32_t width_at(uint64_t d, int place, uint64_t most) { return uint32_t(part(d, place, most) + 1); }

int main() {
  uint64_t seed = 1, sum = 0;
  for (int trace = 0; trace < 300; trace++) {
    seed = next(seed);
    uint64_t other = next(seed);
    Config c;
    Widths& w = c.widths;
    w.ruu = width_at(seed, 20, 40) + 3;
    w.fetch = width_at(seed, 60, 8); w.dispatch = width_at(seed, 56, 8); w.issue = width_at(seed, 52, 8); w.retire = width_at(seed, 48, 8);
    w.queue = width_at(seed, 40, 32); w.lsq = std::min(width_at(seed, 32, 15), w.ruu - 1) + 1; w.penalty = width_at(seed, 24, 9);
    w.alus = width_at(other, 60, 4); w.muls = width_at(other, 56, 2); w.divs = width_at(other, 52, 2);
    w.loads = width_at(other, 48, 3); w.stores = width_at(other, 44, 2); w.branches = width_at(other, 40, 3);
    w.forward = width_at(seed, 16, 16);
    std::vector<Marked> items;
    uint64_t count = part(other, 32, 100) + 1, draw = other;
    for (uint64_t i = 0; i < count; i++) { draw = next(draw); items.push_back(mark_at(draw)); }
    uint32_t skip = uint32_t(part(other, 20, 100) % count);
    sum = sum * 31 + cycles(c, items, skip);
  }
  printf("%llu\n", (unsigned long long)sum);
}
