// What threads gain on this machine in plain C++ where an answer is written to a client beside them.
//
//     g++ -O3 -std=c++17 -pthread bench/thread_answers.cpp -o thread_answers && ./thread_answers
//
// A table of 8,000,000 rows comes in pieces of 65,536, which threads draw by one fetch_add. Each makes the answer of its piece:
// "few" keeps 1 row in 100 and copies three columns of it, "half" keeps every other row and two columns, so 64 MB. The first
// thread writes the answers in their order to a TCP connection on loopback, and makes one itself where the next is not there. The
// client is a process of its own, and has the kernel throw away what comes, as bench/sockets.cpp has. Told is the best time by
// the clock of fifteen answers with 1, 2 and 4 threads, and the processor time of the server for one.
#include <arpa/inet.h>
#include <netinet/tcp.h>
#include <sys/resource.h>
#include <sys/socket.h>
#include <sys/wait.h>
#include <unistd.h>

#include <algorithm>
#include <atomic>
#include <chrono>
#include <condition_variable>
#include <cstdint>
#include <cstdio>
#include <cstdlib>
#include <cstring>
#include <mutex>
#include <thread>
#include <vector>

#include "thread_table.hpp"

namespace {

constexpr size_t kPieces = (kRows + kPiece - 1) / kPiece;
constexpr int kRounds = 15;

using Answer = std::vector<char>;

template <class T>
void copy_kept(const std::vector<T>& column, const std::vector<uint32_t>& kept, size_t count, Answer& answer) {
  size_t at = answer.size();
  answer.resize(at + count * sizeof(T));
  T* to = reinterpret_cast<T*>(answer.data() + at);
  for (size_t place = 0; place < count; ++place) to[place] = column[kept[place]];
}

Answer answer_of(const Table& table, size_t piece, bool half) {
  static thread_local std::vector<uint32_t> kept(kPiece + 1);
  const int64_t bound = half ? 500'000'000 : 10'000'000;
  size_t count = 0;
  for (size_t row = kPiece * piece; row < std::min(kRows, kPiece * (piece + 1)); ++row) {
    kept[count] = row;
    count += table.a[row] < bound;
  }
  Answer answer;
  answer.reserve(count * 20);
  copy_kept(table.a, kept, count, answer);
  copy_kept(table.b, kept, count, answer);
  if (!half) copy_kept(table.k, kept, count, answer);
  return answer;
}

void write_all(int to, const Answer& answer) {
  for (size_t at = 0; at < answer.size();) {
    ssize_t count = write(to, answer.data() + at, answer.size() - at);
    if (count <= 0) std::exit(1);
    at += count;
  }
}

struct Fetch {
  std::vector<Answer> answers = std::vector<Answer>(kPieces);
  std::vector<char> made = std::vector<char>(kPieces);
  std::atomic<size_t> next{0};
  std::mutex lock;
  std::condition_variable filled;

  bool make_one(const Table& table, bool half) {
    size_t piece = next.fetch_add(1);
    if (piece >= kPieces) return false;
    Answer answer = answer_of(table, piece, half);
    std::lock_guard<std::mutex> held(lock);
    answers[piece] = std::move(answer);
    made[piece] = true;
    filled.notify_one();
    return true;
  }

  bool is_made(size_t piece) {
    std::lock_guard<std::mutex> held(lock);
    return made[piece];
  }
};

void serve_one(const Table& table, bool half, int threads, int to) {
  Fetch fetch;
  std::vector<std::thread> others;
  for (int other = 1; other < threads; ++other) others.emplace_back([&] { while (fetch.make_one(table, half)) {} });
  for (size_t piece = 0; piece < kPieces; ++piece) {
    while (!fetch.is_made(piece) && fetch.make_one(table, half)) {}
    std::unique_lock<std::mutex> held(fetch.lock);
    fetch.filled.wait(held, [&] { return fetch.made[piece]; });
    Answer answer = std::move(fetch.answers[piece]);
    held.unlock();
    write_all(to, answer);
  }
  for (std::thread& other : others) other.join();
}

double processor_seconds() {
  rusage usage;
  getrusage(RUSAGE_SELF, &usage);
  return usage.ru_utime.tv_sec + usage.ru_stime.tv_sec + 1e-6 * (usage.ru_utime.tv_usec + usage.ru_stime.tv_usec);
}

// The client: asks with one byte, and reads until the answer is whole. It tells the seconds that took.
[[noreturn]] void be_client(uint16_t port, const std::vector<size_t>& sizes, int told) {
  int socket_ = socket(AF_INET, SOCK_STREAM, 0);
  sockaddr_in address{};
  address.sin_family = AF_INET;
  address.sin_port = htons(port);
  address.sin_addr.s_addr = htonl(INADDR_LOOPBACK);
  if (connect(socket_, reinterpret_cast<sockaddr*>(&address), sizeof address)) _exit(1);
  for (size_t size : sizes) {
    auto begin = std::chrono::steady_clock::now();
    if (send(socket_, "x", 1, 0) != 1) _exit(1);
    for (size_t left = size; left > 0;) {
      ssize_t count = recv(socket_, nullptr, left, MSG_TRUNC);
      if (count <= 0) _exit(1);
      left -= count;
    }
    double seconds = std::chrono::duration<double>(std::chrono::steady_clock::now() - begin).count();
    if (write(told, &seconds, sizeof seconds) != sizeof seconds) _exit(1);
  }
  _exit(0);
}

}  // namespace

int main() {
  const Table table;
  std::puts("| plain C++ with a client | 1 thread | 2 | 4 | times as fast with 2, 4 | processor time with 2, 4 |\n|---|---:|---:|---:|---:|---:|");
  for (bool half : {false, true}) {
    size_t size = 0;
    for (size_t piece = 0; piece < kPieces; ++piece) size += answer_of(table, piece, half).size();
    int listener = socket(AF_INET, SOCK_STREAM, 0), told[2];
    sockaddr_in address{};
    address.sin_family = AF_INET;
    address.sin_addr.s_addr = htonl(INADDR_LOOPBACK);
    socklen_t length = sizeof address;
    if (bind(listener, reinterpret_cast<sockaddr*>(&address), sizeof address) || listen(listener, 1) || pipe(told)) return 1;
    getsockname(listener, reinterpret_cast<sockaddr*>(&address), &length);
    pid_t child = fork();
    if (child == 0) be_client(ntohs(address.sin_port), std::vector<size_t>(3 * kRounds, size), told[1]);
    int connection = accept(listener, nullptr, nullptr), one = 1;
    setsockopt(connection, IPPROTO_TCP, TCP_NODELAY, &one, sizeof one);
    double best[3] = {1e9, 1e9, 1e9}, used[3] = {1e9, 1e9, 1e9};
    for (int round = 0; round < 3 * kRounds; ++round) {
      char byte;
      if (recv(connection, &byte, 1, 0) != 1) return 1;
      double before = processor_seconds(), seconds;
      serve_one(table, half, 1 << round % 3, connection);
      used[round % 3] = std::min(used[round % 3], processor_seconds() - before);
      if (read(told[0], &seconds, sizeof seconds) != sizeof seconds) return 1;
      best[round % 3] = std::min(best[round % 3], seconds);
    }
    waitpid(child, nullptr, 0);
    close(connection);
    close(listener);
    std::printf("| %s, %.0f MB | %.1f ms | %.1f | %.1f | %.2f, %.2f | %.2f, %.2f |\n", half ? "half" : "few", size / 1e6, 1e3 * best[0],
                1e3 * best[1], 1e3 * best[2], best[0] / best[1], best[0] / best[2], used[1] / used[0], used[2] / used[0]);
  }
}
