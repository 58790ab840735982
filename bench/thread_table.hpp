// The table that the benchmarks of threads read: 8,000,000 rows, which come in pieces of 65,536.
#pragma once
#include <cstdint>
#include <random>
#include <vector>

constexpr size_t kRows = 8'000'000, kPiece = 65'536, kKeys = 1'000;

struct Table {
  std::vector<int64_t> a, b;
  std::vector<int32_t> k;

  Table() : a(kRows), b(kRows), k(kRows) {
    std::mt19937_64 random(1);
    for (size_t row = 0; row < kRows; ++row) {
      a[row] = random() % 1'000'000'000;
      b[row] = static_cast<int64_t>(random() % 2'000'000) - 1'000'000;
      k[row] = random() % kKeys;
    }
  }
};
