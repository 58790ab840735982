// Plain ends of connections on loopback, for bench/serve.py and bench/readers.py.
//
//     sockets answer {READ WRITE COUNT}                     # listens, prints the port, and serves one connection
//     sockets ask PORT {FILE ANSWER COUNT}                  # the other end
//     sockets crowd PORT SECONDS {FILE ANSWER COUNT MOST}   # many connections to a flightscan
//
// Both ends go through the same steps, each COUNT times: one reads READ bytes, looks at none of them, and writes WRITE
// bytes; the other sends the bytes of a file and reads ANSWER bytes. Behind each step `ask` prints the median and the least
// of its times, in nanoseconds, and waits for a line of its standard input.
//
// `crowd` has COUNT connections for each file, each in a thread of its own. Each calls once; then a line is printed, and
// each goes on for so many seconds, or until one of them has called MOST times. The kernel throws the answers away, but for
// the Status, which has to be 0. Where 256 KB of an answer or more are still to come, a connection is woken when so many are
// there. For each file are printed the calls a second of all its connections, how many they were, and of their times the
// least, the median and the 99th percentile. The last line has the process's own processor time, and how long it all took.
// All times are nanoseconds.

#include <algorithm>
#include <arpa/inet.h>
#include <atomic>
#include <barrier>
#include <chrono>
#include <cstdio>
#include <cstdlib>
#include <cstring>
#include <netinet/tcp.h>
#include <poll.h>
#include <string>
#include <sys/resource.h>
#include <sys/socket.h>
#include <thread>
#include <unistd.h>
#include <vector>

constexpr size_t piece = 262144;

[[noreturn]] void fail(const char *said) {
  perror(said);
  exit(1);
}

int64_t now() { return std::chrono::nanoseconds(std::chrono::steady_clock::now().time_since_epoch()).count(); }

size_t number(const char *word) { return strtoull(word, nullptr, 10); }

void without_delay(int connection) {
  int on = 1;
  if (setsockopt(connection, IPPROTO_TCP, TCP_NODELAY, &on, sizeof on) != 0) fail("TCP_NODELAY");
}

sockaddr_in loopback(uint16_t port) {
  sockaddr_in place{};
  place.sin_family = AF_INET;
  place.sin_addr.s_addr = htonl(INADDR_LOOPBACK);
  place.sin_port = htons(port);
  return place;
}

void send_all(int connection, const char *data, size_t count) {
  while (count > 0) {
    ssize_t sent = write(connection, data, std::min(count, piece));
    if (sent <= 0) fail("write");
    data += sent;
    count -= sent;
  }
}

// Reads so many bytes, and keeps none.
void pass_over(int connection, size_t count) {
  static char room[piece];
  while (count > 0) {
    ssize_t came = read(connection, room, std::min(count, piece));
    if (came <= 0) fail("read");
    count -= came;
  }
}

void send_zeros(int connection, size_t count) {
  static const char zeros[piece] = {};
  for (; count > piece; count -= piece) send_all(connection, zeros, piece);
  send_all(connection, zeros, count);
}

int answer(char **steps) {
  int listener = socket(AF_INET, SOCK_STREAM, 0);
  sockaddr_in place = loopback(0);
  socklen_t size = sizeof place;
  if (bind(listener, (sockaddr *)&place, size) != 0 || listen(listener, 1) != 0) fail("listen");
  getsockname(listener, (sockaddr *)&place, &size);
  printf("listening 127.0.0.1:%d\n", ntohs(place.sin_port));
  fflush(stdout);
  int connection = accept(listener, nullptr, nullptr);
  without_delay(connection);
  for (; *steps; steps += 3) {
    for (size_t times = number(steps[2]); times > 0; times--) {
      pass_over(connection, number(steps[0]));
      send_zeros(connection, number(steps[1]));
    }
  }
  return 0;
}

std::string contents(const char *path) {
  FILE *file = fopen(path, "rb");
  if (!file || fseek(file, 0, SEEK_END) != 0) fail(path);
  std::string data(ftell(file), '\0');
  rewind(file);
  if (fread(data.data(), 1, data.size(), file) != data.size()) fail(path);
  fclose(file);
  return data;
}

void ask_step(int connection, const std::string &request, size_t size, size_t count) {
  std::vector<int64_t> times;
  for (size_t turn = 0; turn < count; turn++) {
    int64_t began = now();
    send_all(connection, request.data(), request.size());
    pass_over(connection, size);
    times.push_back(now() - began);
  }
  std::sort(times.begin(), times.end());
  printf("%lld %lld\n", (long long)times[count / 2], (long long)times[0]);
  fflush(stdout);
  while (getchar() != '\n') {}
}

int connected(uint16_t port) {
  int connection = socket(AF_INET, SOCK_STREAM, 0);
  sockaddr_in place = loopback(port);
  if (connect(connection, (sockaddr *)&place, sizeof place) != 0) fail("connect");
  without_delay(connection);
  return connection;
}

int ask(uint16_t port, char **steps) {
  int connection = connected(port);
  for (; *steps; steps += 3) ask_step(connection, contents(steps[0]), number(steps[1]), number(steps[2]));
  return 0;
}

// What the connections of one file do, and what came of it.
struct Group {
  std::string request;
  size_t answer, count, most;
  std::vector<double> rates = std::vector<double>(count);
  std::vector<std::vector<int64_t>> times = std::vector<std::vector<int64_t>>(count);
};

// Has a connection be ready to be read when so many bytes are there.
void ready_at(int connection, int count) {
  if (setsockopt(connection, SOL_SOCKET, SO_RCVLOWAT, &count, sizeof count) != 0) fail("SO_RCVLOWAT");
}

// Throws bytes away, at most so many, and tells how many are left.
size_t without(int connection, size_t left) {
  ssize_t came = recv(connection, nullptr, left, MSG_TRUNC);
  if (came <= 0) fail("recv");
  return left - came;
}

// Throws so many bytes away, but for a piece of them at most, which are left. It is woken when a piece is there.
size_t without_pieces(int connection, size_t left) {
  if (left <= piece) return left;
  ready_at(connection, piece);
  for (pollfd readable{connection, POLLIN, 0}; left > piece; left = without(connection, left)) {
    if (poll(&readable, 1, -1) != 1) fail("poll");
  }
  ready_at(connection, 1);
  return left;
}

void call(int connection, const Group &group) {
  char status[4];
  send_all(connection, group.request.data(), group.request.size());
  size_t left = without_pieces(connection, group.answer - sizeof status);
  while (left > 0) left = without(connection, left);
  if (recv(connection, status, sizeof status, MSG_WAITALL) != sizeof status) fail("recv");
  if (memcmp(status, "\4\0\0", sizeof status) != 0) {
    fputs("an answer without status 0\n", stderr);
    exit(1);
  }
}

void print_group(Group &group) {
  std::vector<int64_t> all;
  double rate = 0;
  for (double one : group.rates) rate += one;
  for (auto &times : group.times) all.insert(all.end(), times.begin(), times.end());
  std::sort(all.begin(), all.end());
  printf("%f %zu", rate, all.size());
  for (size_t place : {size_t(0), all.size() / 2, all.size() * 99 / 100}) printf(" %lld", (long long)all[place]);
  puts("");
}

int64_t processor_time() {
  rusage used;
  getrusage(RUSAGE_SELF, &used);
  return 1000000000 * (used.ru_utime.tv_sec + used.ru_stime.tv_sec) + 1000 * (used.ru_utime.tv_usec + used.ru_stime.tv_usec);
}

int crowd(uint16_t port, double seconds, char **words) {
  std::vector<Group> groups;
  size_t count = 0;
  for (; *words; words += 4) {
    groups.push_back({contents(words[0]), number(words[1]), number(words[2]), number(words[3])});
    count += groups.back().count;
  }
  int64_t began = 0, used = 0;
  std::atomic<bool> ended = false;
  std::barrier together(count, [&]() noexcept {
    puts("begun");
    fflush(stdout);
    used = processor_time();
    began = now();
  });
  auto run = [&](Group &group, size_t place) {
    int connection = connected(port);
    std::vector<int64_t> &times = group.times[place];
    call(connection, group);
    together.arrive_and_wait();
    int64_t last = began, end = began + int64_t(seconds * 1e9);
    do {
      int64_t before = now();
      call(connection, group);
      last = now();
      times.push_back(last - before);
      if (times.size() == group.most) ended = true;
    } while (last < end && !ended);
    group.rates[place] = times.size() * 1e9 / (last - began);
  };
  std::vector<std::thread> threads;
  for (Group &group : groups) {
    for (size_t place = 0; place < group.count; place++) threads.emplace_back(run, std::ref(group), place);
  }
  for (std::thread &thread : threads) thread.join();
  int64_t took = now() - began;
  used = processor_time() - used;
  for (Group &group : groups) print_group(group);
  printf("%lld %lld\n", (long long)used, (long long)took);
  return 0;
}

int main(int count, char **words) {
  if (count > 1 && count % 3 == 2 && strcmp(words[1], "answer") == 0) return answer(words + 2);
  if (count > 2 && count % 3 == 0 && strcmp(words[1], "ask") == 0) return ask(number(words[2]), words + 3);
  if (count > 3 && count % 4 == 0 && strcmp(words[1], "crowd") == 0) {
    return crowd(number(words[2]), atof(words[3]), words + 4);
  }
  fputs("the ways to call it stand at the top of sockets.cpp\n", stderr);
  return 2;
}
