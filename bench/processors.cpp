// How much arithmetic so many threads do at once, beside one.
//
//     processors COUNT
//
// One thread and COUNT threads work in turns, four times 20 ms each. They add and compare numbers in registers, so no memory is
// between them. Printed is how many times as much COUNT threads did in all as the one: COUNT, where each has a processor of its own
// and all are of one speed. On a virtual machine it may be less, or more where the one had a slow processor.

#include <atomic>
#include <chrono>
#include <cstdint>
#include <cstdio>
#include <cstdlib>
#include <numeric>
#include <thread>
#include <vector>

namespace {

constexpr int kTurns = 4;
constexpr auto kTurn = std::chrono::milliseconds(20);

// How many pieces of work a thread does until it is told to stop.
uint64_t pieces_until(const std::atomic<bool> &ended) {
  uint64_t pieces = 0, a = 1, b = 2, c = 3, d = 4;
  for (; !ended.load(std::memory_order_relaxed); ++pieces) {
    for (int step = 0; step < 2'000; ++step) {
      asm volatile("add $1, %0\n add $3, %1\n add $5, %2\n add $7, %3\n xor $9, %0\n xor $11, %1\n add $13, %2\n add $15, %3\n"
                   : "+r"(a), "+r"(b), "+r"(c), "+r"(d));
    }
  }
  return pieces;
}

// How many pieces a second so many threads do in all, once all have begun.
double rate_of(size_t count) {
  std::atomic<size_t> begun = 0;
  std::atomic<bool> ended = false;
  std::vector<double> rates(count);
  std::vector<std::thread> threads;
  for (double &rate : rates) {
    threads.emplace_back([&] {
      for (++begun; begun < count;) {
      }
      auto from = std::chrono::steady_clock::now();
      uint64_t pieces = pieces_until(ended);
      rate = pieces / std::chrono::duration<double>(std::chrono::steady_clock::now() - from).count();
    });
  }
  while (begun < count) std::this_thread::yield();
  std::this_thread::sleep_for(kTurn);
  ended = true;
  for (std::thread &thread : threads) thread.join();
  return std::accumulate(rates.begin(), rates.end(), 0.0);
}

}  // namespace

int main(int count, char **words) {
  if (count != 2 || atoi(words[1]) < 1) {
    fputs("the way to call it stands at the top of processors.cpp\n", stderr);
    return 2;
  }
  double one = 0, all = 0;
  for (int turn = 0; turn < kTurns; ++turn) {
    one += rate_of(1);
    all += rate_of(atoi(words[1]));
  }
  printf("%.2f\n", all / one);
}
