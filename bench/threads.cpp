// What threads gain on this machine in plain C++: three loops over 8,000,000 rows and one of arithmetic alone.
//
//     g++ -O3 -std=c++17 -pthread bench/threads.cpp -o threads && ./threads
//
// The rows come in pieces of 65,536, which threads draw by one fetch_add, as workers draw the morsels of a fetch. "filter" keeps 1
// row in 100 by a number and copies three columns of it; "sum" adds the numbers of one column; "groups" counts and sums a column
// by 1,000 keys, in arrays of each thread. Told is the best time of nine rounds with 1, 2, 3 and 4 threads.
#include <algorithm>
#include <atomic>
#include <chrono>
#include <cstdint>
#include <cstdio>
#include <functional>
#include <thread>
#include <vector>

#include "thread_table.hpp"

namespace {

constexpr int kRounds = 9;

struct Room {  // of one thread
  std::vector<uint32_t> kept = std::vector<uint32_t>(kPiece);
  std::vector<int64_t> a = std::vector<int64_t>(kPiece), b = std::vector<int64_t>(kPiece);
  std::vector<int32_t> k = std::vector<int32_t>(kPiece);
  std::vector<int64_t> counts = std::vector<int64_t>(kKeys), sums = std::vector<int64_t>(kKeys);
  uint64_t seen = 0;  // so that nothing is left out
};

using Loop = std::function<void(const Table&, Room&, size_t from, size_t to)>;

void filter(const Table& table, Room& room, size_t from, size_t to) {
  size_t count = 0;
  for (size_t row = from; row < to; ++row) {
    room.kept[count] = row;
    count += table.a[row] < 10'000'000;
  }
  for (size_t place = 0; place < count; ++place) {
    size_t row = room.kept[place];
    room.a[place] = table.a[row];
    room.b[place] = table.b[row];
    room.k[place] = table.k[row];
  }
  room.seen += count + room.a[0] + room.b[0] + room.k[0];
}

void sum(const Table& table, Room& room, size_t from, size_t to) {
  for (size_t row = from; row < to; ++row) room.seen += table.a[row];
}

void groups(const Table& table, Room& room, size_t from, size_t to) {
  for (size_t row = from; row < to; ++row) {
    ++room.counts[table.k[row]];
    room.sums[table.k[row]] += table.b[row];
  }
  room.seen += room.counts[0] + room.sums[0];
}

void arithmetic(const Table&, Room& room, size_t from, size_t to) {
  uint64_t a = from, b = 1, c = 2, d = 3;
  for (size_t turn = 8 * from; turn < 8 * to; ++turn) {
    a += b ^ turn;
    b += c ^ turn;
    c += d ^ turn;
    d += a;
  }
  room.seen += a + b + c + d;
}

double best_seconds(const Table& table, const Loop& loop, int threads) {
  double best = 1e9;
  for (int round = 0; round < kRounds; ++round) {
    std::atomic<size_t> next{0};
    std::atomic<uint64_t> seen{0};
    auto work = [&] {
      Room room;
      for (size_t from; (from = kPiece * next.fetch_add(1)) < kRows;) loop(table, room, from, std::min(kRows, from + kPiece));
      seen += room.seen;
    };
    auto begin = std::chrono::steady_clock::now();
    std::vector<std::thread> others;
    for (int other = 1; other < threads; ++other) others.emplace_back(work);
    work();
    for (std::thread& other : others) other.join();
    best = std::min(best, std::chrono::duration<double>(std::chrono::steady_clock::now() - begin).count());
    if (seen == 42) std::puts("");
  }
  return best;
}

}  // namespace

int main() {
  const Table table;
  const std::pair<const char*, Loop> loops[] = {{"filter", filter}, {"sum", sum}, {"groups", groups}, {"arithmetic", arithmetic}};
  std::puts("| plain C++ | 1 thread | 2 | 3 | 4 | times as fast with 2, 3, 4 |\n|---|---:|---:|---:|---:|---:|");
  for (const auto& [name, loop] : loops) {
    double seconds[5];
    for (int threads = 1; threads <= 4; ++threads) seconds[threads] = best_seconds(table, loop, threads);
    std::printf("| %s | %.1f ms | %.1f | %.1f | %.1f | %.2f, %.2f, %.2f |\n", name, 1e3 * seconds[1], 1e3 * seconds[2], 1e3 * seconds[3],
                1e3 * seconds[4], seconds[1] / seconds[2], seconds[1] / seconds[3], seconds[1] / seconds[4]);
  }
}
