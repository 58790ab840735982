// Joins, groups and filters over plain arrays: what hand-written loops reach, for bench/join_group.py.
//
//     join_group QUERY COLUMN..     # the answer, in chunks, to standard output
//
// A column is a file of Int64, in which the least number stands for a null key of the queries "join nullable" and "group
// nullable". A chunk is a count of rows and then the values of each column of the answer. The answers have the order of
// docs/SQL.md. Tables are chained: a bucket has the last row or group that fell into it, and each
// leads to the one before it (a join's go upwards). A bucket is std::hash of the key, modulo their number.

#include <cstdint>
#include <cstdio>
#include <cstdlib>
#include <cstring>
#include <functional>
#include <string>
#include <vector>

using Longs = std::vector<int64_t>;
constexpr uint32_t none = UINT32_MAX;
constexpr size_t chunk_rows = 65536;
constexpr int64_t null_key = INT64_MIN;

[[noreturn]] void fail(const char *said) {
  fprintf(stderr, "join_group: %s\n", said);
  exit(1);
}

Longs read_column(const char *path) {
  FILE *file = fopen(path, "rb");
  if (!file || fseek(file, 0, SEEK_END) != 0) fail(path);
  Longs column(size_t(ftell(file)) / sizeof(int64_t));
  rewind(file);
  if (fread(column.data(), sizeof(int64_t), column.size(), file) != column.size()) fail(path);
  fclose(file);
  return column;
}

void write_bytes(const void *bytes, size_t count) {
  if (fwrite(bytes, 1, count, stdout) != count) fail("a write");
}

// Rows of two columns, written in chunks.
struct Pairs {
  Longs left, right;

  void add(int64_t one, int64_t other) {
    left.push_back(one);
    right.push_back(other);
    if (left.size() == chunk_rows) flush();
  }
  void flush() {
    uint64_t rows = left.size();
    if (rows == 0) return;
    write_bytes(&rows, sizeof rows);
    write_bytes(left.data(), rows * sizeof(int64_t));
    write_bytes(right.data(), rows * sizeof(int64_t));
    left.clear();
    right.clear();
  }
};

// At least as many buckets as entries, as a power of two.
size_t buckets_for(size_t entries) {
  size_t buckets = 16;
  while (buckets < entries) buckets *= 2;
  return buckets;
}

// A chained table over keys that lie elsewhere.
struct Chains {
  std::vector<uint32_t> heads, next;

  explicit Chains(size_t entries) : heads(buckets_for(entries), none) {}

  uint32_t &head(int64_t key) { return heads[std::hash<int64_t>{}(key) % heads.size()]; }
};

void filter(const Longs &a, const Longs &v, int64_t above) {
  Pairs answer;
  for (size_t row = 0; row < a.size(); row++)
    if (a[row] < above) answer.add(a[row], v[row]);
  answer.flush();
}

// The right is linked from the last row down, so that each chain rises.
template <bool nullable>
void join(const Longs &left_key, const Longs &left, const Longs &right_key, const Longs &right) {
  Chains table(right_key.size());
  table.next.resize(right_key.size());
  for (size_t row = right_key.size(); row-- > 0;) {
    if (nullable && right_key[row] == null_key) continue;
    uint32_t &head = table.head(right_key[row]);
    table.next[row] = head;
    head = uint32_t(row);
  }
  Pairs answer;
  for (size_t row = 0; row < left_key.size(); row++) {
    if (nullable && left_key[row] == null_key) continue;
    for (uint32_t at = table.head(left_key[row]); at != none; at = table.next[at])
      if (right_key[at] == left_key[row]) answer.add(left[row], right[at]);
  }
  answer.flush();
}

// Groups by first appearance, with their counts and sums.
struct Groups {
  Chains table{16};
  Longs keys, counts;
  std::vector<__int128> sums;

  uint32_t of(int64_t key) {
    for (uint32_t at = table.head(key); at != none; at = table.next[at])
      if (keys[at] == key) return at;
    if (keys.size() == table.heads.size()) grow();
    keys.push_back(key);
    counts.push_back(0);
    sums.push_back(0);
    link(uint32_t(keys.size() - 1));
    return uint32_t(keys.size() - 1);
  }
  void link(uint32_t group) {
    uint32_t &head = table.head(keys[group]);
    table.next.push_back(head);
    head = group;
  }
  void grow() {
    table = Chains(2 * keys.size());
    for (uint32_t group = 0; group < keys.size(); group++) link(group);
  }
};

// A null key is a key like others. The answer has the keys only where none can be null.
template <bool nullable>
void group(const Longs &key, const Longs &value) {
  Groups groups;
  for (size_t row = 0; row < key.size(); row++) {
    uint32_t at = groups.of(key[row]);
    groups.counts[at] += 1;
    groups.sums[at] += value[row];
  }
  uint64_t rows = groups.keys.size();
  write_bytes(&rows, sizeof rows);
  if (!nullable) write_bytes(groups.keys.data(), rows * sizeof(int64_t));
  write_bytes(groups.counts.data(), rows * sizeof(int64_t));
  write_bytes(groups.sums.data(), rows * sizeof(__int128));
}

int main(int count, char **words) {
  if (count < 2) fail("no query");
  std::string query = words[1];
  std::vector<Longs> columns;
  for (int word = 2; word < count; word++)
    columns.push_back(read_column(words[word]));
  size_t wanted = query.starts_with("join") ? 4 : 2;
  if (query != "load" && columns.size() != wanted) fail("another number of columns");
  if (query.starts_with("filter ")) filter(columns[0], columns[1], std::stoll(query.substr(7)));
  else if (query == "join") join<false>(columns[0], columns[1], columns[2], columns[3]);
  else if (query == "join nullable") join<true>(columns[0], columns[1], columns[2], columns[3]);
  else if (query == "group") group<false>(columns[0], columns[1]);
  else if (query == "group nullable") group<true>(columns[0], columns[1]);
  else if (query != "load") fail("another query");
  return fflush(stdout) == 0 ? 0 : 1;
}
