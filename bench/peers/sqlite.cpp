// SQLite in this process, which run.py compiles and talks to: `sqlite T U`, two files of rows in the binary form of COPY.
//
// The tables lie in memory. Column c of t and column key of u are keys by which their rows lie. It prints its version, and then
// answers each line of its standard input:
//
//     ask SQL     reads each value of the answer, and keeps none: prints its nanoseconds, and its bytes
//     look SQL    prints a line for each row, with tabs between its values and a null as \N, and an empty line
//     put         all rows of t, as a new table: prints its nanoseconds

#include <chrono>
#include <cstdint>
#include <cstdio>
#include <cstdlib>
#include <fstream>
#include <iostream>
#include <iterator>
#include <memory>
#include <sqlite3.h>
#include <string>

const std::string columns = "(a INTEGER NOT NULL, b INTEGER, k INTEGER NOT NULL, s TEXT NOT NULL, d INTEGER NOT NULL, "
                            "c INTEGER PRIMARY KEY, j INTEGER NOT NULL)";
constexpr int text_of_t = 3;
constexpr size_t head = 19;  // of a file of rows
sqlite3 *database;

[[noreturn]] void refuse() {
  std::cerr << sqlite3_errmsg(database) << std::endl;
  exit(1);
}

int64_t now() { return std::chrono::nanoseconds(std::chrono::steady_clock::now().time_since_epoch()).count(); }

using Statement = std::unique_ptr<sqlite3_stmt, decltype(&sqlite3_finalize)>;

Statement statement_of(const std::string &words) {
  sqlite3_stmt *found = nullptr;
  if (sqlite3_prepare_v2(database, words.c_str(), -1, &found, nullptr) != SQLITE_OK) refuse();
  return {found, sqlite3_finalize};
}

// Whether there is one row more.
bool step(const Statement &statement) {
  int found = sqlite3_step(statement.get());
  if (found != SQLITE_ROW && found != SQLITE_DONE) refuse();
  return found == SQLITE_ROW;
}

void run(const std::string &words) { step(statement_of(words)); }

int64_t number(const char *at, int size) {
  uint64_t value = 0;
  for (int byte = 0; byte < size; byte++) value = value << 8 | uint8_t(at[byte]);
  return size == 4 ? int32_t(value) : size == 2 ? int16_t(value) : int64_t(value);
}

// Binds the fields of a row, and goes behind them.
void bind_row(sqlite3_stmt *insert, const char *&at) {
  int fields = number(at, 2);
  at += 2;
  for (int field = 0; field < fields; field++) {
    int size = number(at, 4);
    at += 4;
    if (size < 0) sqlite3_bind_null(insert, field + 1);
    else if (field == text_of_t) sqlite3_bind_text(insert, field + 1, at, size, SQLITE_STATIC);
    else sqlite3_bind_int64(insert, field + 1, number(at, size));
    if (size > 0) at += size;
  }
}

void insert_rows(const std::string &insert_words, const std::string &rows) {
  run("BEGIN");
  Statement insert = statement_of(insert_words);
  for (const char *at = rows.data() + head; number(at, 2) >= 0;) {
    bind_row(insert.get(), at);
    step(insert);
    sqlite3_reset(insert.get());
  }
  run("COMMIT");
}

std::string contents(const char *path) {
  std::ifstream file(path, std::ios::binary);
  return {std::istreambuf_iterator<char>(file), std::istreambuf_iterator<char>()};
}

// Reads a value, and tells its bytes.
size_t read_value(sqlite3_stmt *select, int column) {
  switch (sqlite3_column_type(select, column)) {
    case SQLITE_NULL: return 0;
    case SQLITE_TEXT: sqlite3_column_text(select, column); return sqlite3_column_bytes(select, column);
    default: sqlite3_column_int64(select, column); return sizeof(int64_t);
  }
}

void ask(const std::string &query) {
  int64_t began = now();
  size_t bytes = 0;
  Statement select = statement_of(query);
  for (int count = sqlite3_column_count(select.get()); step(select);)
    for (int column = 0; column < count; column++) bytes += read_value(select.get(), column);
  std::cout << now() - began << ' ' << bytes << std::endl;
}

void look(const std::string &query) {
  Statement select = statement_of(query);
  for (int count = sqlite3_column_count(select.get()); step(select);) {
    for (int column = 0; column < count; column++) {
      auto text = reinterpret_cast<const char *>(sqlite3_column_text(select.get(), column));
      std::cout << (column ? "\t" : "") << (text ? text : "\\N");
    }
    std::cout << '\n';
  }
  std::cout << std::endl;
}

void put(const std::string &rows) {
  run("DROP TABLE IF EXISTS copy");
  run("CREATE TABLE copy " + columns);
  int64_t began = now();
  insert_rows("INSERT INTO copy VALUES (?, ?, ?, ?, ?, ?, ?)", rows);
  std::cout << now() - began << " 0" << std::endl;
}

int main(int count, char **words) {
  if (count != 3 || sqlite3_open(":memory:", &database) != SQLITE_OK) return 2;
  std::string rows = contents(words[1]);
  run("CREATE TABLE t " + columns);
  insert_rows("INSERT INTO t VALUES (?, ?, ?, ?, ?, ?, ?)", rows);
  run("CREATE TABLE u (key INTEGER PRIMARY KEY, v INTEGER NOT NULL)");
  insert_rows("INSERT INTO u VALUES (?, ?)", contents(words[2]));
  std::cout << sqlite3_libversion() << std::endl;
  for (std::string line; std::getline(std::cin, line);) {
    if (line == "put") put(rows);
    else if (line.rfind("ask ", 0) == 0) ask(line.substr(4));
    else look(line.substr(5));
  }
}
