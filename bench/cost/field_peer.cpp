// A peer of the auditor for bench/cost/field.py: judges whole scripts with a SAT solver.
//
//   g++ -std=c++17 -O3 -o field_peer field_peer.cpp
//   ./field_peer [SECONDS] < SCRIPT
//
// It reads the `open` and `offer` lines and passes over all others: rounds and cuts change nothing, and
// everything that a script offers is judged at once. For each script on standard input it prints one line
// of JSON. The solver is clasp, which knows acyclic graphs; it gets at most SECONDS (600).
//
// 1. The known order: each session's, and writers before their readers. It is kept as two numbers a
//    transaction and session: how many of that session come before, and the first that comes after.
// 2. Forced overwrites, until nothing changes: of a read and another writer of its key, the other writer
//    comes before the one that was read from, or after the reader. If one is impossible, the other is known.
// 3. What is left open becomes one variable per pair of writers, each side with its arcs, over a graph of
//    the transactions that these arcs touch and the known order between them. Some assignment has to
//    leave the graph without a cycle.
#include <algorithm>
#include <chrono>
#include <cstdint>
#include <cstdio>
#include <cstdlib>
#include <cstring>
#include <map>
#include <string>
#include <sys/resource.h>
#include <sys/wait.h>
#include <unistd.h>
#include <unordered_map>
#include <utility>
#include <vector>
using std::pair;
using std::string;
using std::vector;
using u32 = uint32_t;
using u64 = uint64_t;

// ---- scripts

struct Read {
    u64 key;
    long session;  // -1: from the initial state
    u64 number;
};

struct Transaction {
    vector<Read> reads;
    vector<u64> writes;
};

using Script = vector<vector<Transaction>>;  // by session

struct Line {
    const char *at, *end;
    long number;

    [[noreturn]] void refuse(const char *what) const {
        fprintf(stderr, "field_peer: line %ld: %s expected\n", number, what);
        exit(2);
    }
    void blanks() {
        while (at < end && (*at == ' ' || *at == '\t' || *at == '\r')) ++at;
    }
    bool is(char c) {
        blanks();
        return at < end && *at == c;
    }
    bool take(char c) {
        const bool found = is(c);
        at += found;
        return found;
    }
    void need(char c) {
        const char what[] = {'\'', c, '\'', 0};
        if (!take(c)) refuse(what);
    }
    u64 whole() {
        blanks();
        if (at == end || *at < '0' || *at > '9') refuse("a whole number");
        u64 value = 0;
        while (at < end && *at >= '0' && *at <= '9') value = value * 10 + u64(*at++ - '0');
        return value;
    }
    bool word(const char *text) {
        blanks();
        const size_t length = strlen(text);
        if (size_t(end - at) < length || memcmp(at, text, length)) return false;
        at += length;
        return true;
    }
    // Calls `item` for each item of a list.
    template <class Item> void list(Item item) {
        need('[');
        if (take(']')) return;
        do item();
        while (take(','));
        need(']');
    }
};

static Transaction transaction_of(Line &line) {
    Transaction its;
    line.need('[');
    line.list([&] {
        line.need('[');
        Read read{line.whole(), -1, 0};
        line.need(',');
        if (!line.word("\"init\"")) {
            read.session = long(line.whole());
            line.need(',');
            read.number = line.whole();
        }
        line.need(']');
        its.reads.push_back(read);
    });
    line.need(',');
    line.list([&] { its.writes.push_back(line.whole()); });
    if (line.take(',')) {
        if (!line.word("\"aborted\"")) line.refuse("\"aborted\"");
        its = Transaction();  // it has no effect
    }
    line.need(']');
    std::sort(its.writes.begin(), its.writes.end());
    return its;
}

static void take_offer(Line &line, Script &script) {
    const size_t session = line.whole();
    if (session >= script.size()) line.refuse("a session that is open");
    line.need(',');
    if (line.whole() != script[session].size()) line.refuse("the next number of the session");
    line.need(',');
    line.list([&] { script[session].push_back(transaction_of(line)); });
}

// ---- the known order

struct Order {
    u32 sessions = 0, count = 0;
    vector<u32> first, length;           // of each session
    vector<u32> session, place;          // of each transaction: its session, and its number there
    vector<u32> before, after;           // a row of `sessions` numbers for each transaction
    vector<u32> changed;                 // whose rows have changed
    vector<char> is_changed;

    u32 *before_of(u32 v) { return &before[size_t(v) * sessions]; }
    u32 *after_of(u32 v) { return &after[size_t(v) * sessions]; }
    bool precedes(u32 a, u32 b) const { return before[size_t(b) * sessions + session[a]] > place[a]; }

    void begin(const Script &script) {
        sessions = u32(script.size());
        for (const auto &its : script) {
            first.push_back(count);
            length.push_back(u32(its.size()));
            for (u32 at = 0; at < its.size(); ++at) {
                session.push_back(u32(first.size() - 1));
                place.push_back(at);
            }
            count += u32(its.size());
        }
        before.assign(size_t(count) * sessions, 0);
        after.resize(size_t(count) * sessions);
        for (u32 v = 0; v < count; ++v) std::copy(length.begin(), length.end(), after_of(v));
        is_changed.assign(count, 0);
    }

    // All that comes before `a`, and `a`, come before `v`.
    void join_before(u32 v, u32 a) {
        u32 *row = before_of(v), *its = before_of(a);
        for (u32 s = 0; s < sessions; ++s) row[s] = std::max(row[s], its[s]);
        row[session[a]] = std::max(row[session[a]], place[a] + 1);
    }

    void join_after(u32 v, u32 b) {
        u32 *row = after_of(v), *its = after_of(b);
        for (u32 s = 0; s < sessions; ++s) row[s] = std::min(row[s], its[s]);
        row[session[b]] = std::min(row[session[b]], place[b]);
    }

    void note(u32 v) {
        if (!is_changed[v]) changed.push_back(v);
        is_changed[v] = 1;
    }

    // Rows for the order of sessions and of these readers by writer. False if that has a cycle.
    bool close(const vector<vector<u32>> &readers, const vector<vector<u32>> &writers) {
        vector<u32> waits(count), sorted;
        for (u32 v = 0; v < count; ++v) {
            waits[v] = u32(writers[v].size()) + (place[v] > 0);
            if (!waits[v]) sorted.push_back(v);
        }
        for (size_t at = 0; at < sorted.size(); ++at) {
            const u32 v = sorted[at];
            if (place[v]) join_before(v, v - 1);
            for (u32 w : writers[v]) join_before(v, w);
            for (u32 t : readers[v]) if (!--waits[t]) sorted.push_back(t);
            if (has_next(v) && !--waits[v + 1]) sorted.push_back(v + 1);
        }
        if (sorted.size() < count) return false;
        for (size_t at = count; at-- > 0;) {
            const u32 v = sorted[at];
            if (has_next(v)) join_after(v, v + 1);
            for (u32 t : readers[v]) join_after(v, t);
        }
        for (u32 v : sorted) note(v);
        return true;
    }

    bool has_next(u32 v) const { return place[v] + 1 < length[session[v]]; }

    // Adds that `a` comes before `b`. False if that closes a cycle.
    bool add(u32 a, u32 b) {
        if (a == b || precedes(b, a)) return false;
        if (precedes(a, b)) return true;
        for (u32 s = 0; s < sessions; ++s) {
            u32 upto = s == session[a] ? place[a] + 1 : before_of(a)[s];
            for (; upto > 0; --upto) {  // from the latest: those further back reach `b` if it does
                const u32 v = first[s] + upto - 1;
                if (precedes_by_after(v, b)) break;
                join_after(v, b);
                note(v);
            }
            const u32 from = s == session[b] ? place[b] : after_of(b)[s];
            for (u32 at = from; at < length[s]; ++at) {
                const u32 v = first[s] + at;
                if (precedes(a, v)) break;
                join_before(v, a);
                note(v);
            }
        }
        return true;
    }

    bool precedes_by_after(u32 a, u32 b) const {
        return after[size_t(a) * sessions + session[b]] <= place[b];
    }
};

// ---- what the reads ask for

struct Source {
    u32 reader, writer, key;
};

struct Key {
    vector<vector<u32>> writers;  // of each session: the places, ascending
    vector<u32> early;            // readers of the initial state
};

// The open arcs of a pair of writers, if the first or if the second one comes first.
struct Pair {
    vector<pair<u32, u32>> sides[2];
};

struct Judge {
    const Script &script;
    Order order;
    vector<Key> keys;
    vector<Source> sources;
    vector<vector<u32>> of_reader, of_writer;  // places in `sources`
    bool is_pending = false;
    string found;  // why it is violated, if it is
    size_t open = 0;

    explicit Judge(const Script &script) : script(script) { order.begin(script); }

    // False if a read is of what its writer didn't write.
    bool look_up() {
        std::unordered_map<u64, u32> numbers;
        auto key_of = [&](u64 key) -> u32 {
            const auto [it, is_new] = numbers.try_emplace(key, u32(keys.size()));
            if (is_new) keys.push_back({vector<vector<u32>>(order.sessions), {}});
            return it->second;
        };
        for (u32 v = 0; v < order.count; ++v)
            for (u64 key : its(v).writes) keys[key_of(key)].writers[order.session[v]].push_back(order.place[v]);
        of_reader.resize(order.count);
        of_writer.resize(order.count);
        for (u32 t = 0; t < order.count; ++t)
            for (const Read &read : its(t).reads) {
                if (read.session < 0) {
                    keys[key_of(read.key)].early.push_back(t);
                } else if (size_t(read.session) >= script.size()
                           || read.number >= script[size_t(read.session)].size()) {
                    is_pending = true;
                } else {
                    const u32 w = order.first[size_t(read.session)] + u32(read.number);
                    const auto &written = its(w).writes;
                    if (!std::binary_search(written.begin(), written.end(), read.key)) return false;
                    of_reader[t].push_back(u32(sources.size()));
                    of_writer[w].push_back(u32(sources.size()));
                    sources.push_back({t, w, key_of(read.key)});
                }
            }
        return true;
    }

    const Transaction &its(u32 v) const { return script[order.session[v]][order.place[v]]; }

    bool close() {
        vector<vector<u32>> readers(order.count), writers(order.count);
        for (const Source &each : sources) {
            readers[each.writer].push_back(each.reader);
            writers[each.reader].push_back(each.writer);
        }
        return order.close(readers, writers);
    }

    // Readers of the initial state come before each writer of the key.
    bool add_early() {
        for (const Key &key : keys)
            for (u32 t : key.early)
                for (u32 s = 0; s < order.sessions; ++s)
                    for (u32 place : key.writers[s]) {
                        const u32 v = order.first[s] + place;
                        if (v == t) continue;
                        if (!order.add(t, v)) return false;
                        break;  // those after it in its session come after it
                    }
        return true;
    }

    // Adds what this read forces. Of each session, only the last writer before the reader, and the
    // first one after the writer that was read from, can force anything new.
    bool force(const Source &read) {
        for (u32 s = 0; s < order.sessions; ++s) {
            const auto &writers = keys[read.key].writers[s];
            auto it = std::lower_bound(writers.begin(), writers.end(), order.before_of(read.reader)[s]);
            while (it != writers.begin()) {
                const u32 v = order.first[s] + *--it;
                if (v == read.writer) continue;
                if (!order.add(v, read.writer)) return false;
                break;
            }
            it = std::lower_bound(writers.begin(), writers.end(), order.after_of(read.writer)[s]);
            for (; it != writers.end(); ++it) {
                const u32 v = order.first[s] + *it;
                if (v == read.reader) continue;
                if (!order.add(read.reader, v)) return false;
                break;
            }
        }
        return true;
    }

    bool force_all() {
        while (!order.changed.empty()) {
            vector<u32> now;
            now.swap(order.changed);
            for (u32 v : now) order.is_changed[v] = 0;
            for (u32 v : now)
                for (const auto *list : {&of_reader[v], &of_writer[v]})
                    for (u32 at : *list) if (!force(sources[at])) return false;
        }
        return true;
    }

    // The pairs of writers of which a read asks for an order that isn't known.
    vector<Pair> open_pairs() {
        std::map<std::tuple<u32, u32, u32>, Pair> pairs;
        for (const Source &read : sources)
            for (u32 s = 0; s < order.sessions; ++s) {
                const auto &writers = keys[read.key].writers[s];
                const u32 from = order.before_of(read.reader)[s], upto = order.after_of(read.writer)[s];
                auto it = std::lower_bound(writers.begin(), writers.end(), from);
                for (; it != writers.end() && *it < upto; ++it) {
                    const u32 v = order.first[s] + *it, w = read.writer;
                    if (v == read.reader || v == w) continue;
                    Pair &its = pairs[{read.key, std::min(v, w), std::max(v, w)}];
                    its.sides[w > v].push_back({read.reader, v});  // if the writer comes first
                }
            }
        vector<Pair> found;
        for (auto &[name, its] : pairs) {
            const u32 a = std::get<1>(name), b = std::get<2>(name);
            if (its.sides[0].empty()) its.sides[0].push_back({a, b});
            if (its.sides[1].empty()) its.sides[1].push_back({b, a});
            found.push_back(std::move(its));
        }
        return found;
    }

    // The transactions that open arcs touch: by session, their places.
    vector<vector<u32>> ends_of(const vector<Pair> &pairs) const {
        vector<vector<u32>> ends(order.sessions);
        for (const Pair &each : pairs)
            for (const auto &side : each.sides)
                for (auto [x, y] : side)
                    for (u32 v : {x, y}) ends[order.session[v]].push_back(order.place[v]);
        for (auto &its : ends) {
            std::sort(its.begin(), its.end());
            its.erase(std::unique(its.begin(), its.end()), its.end());
        }
        return ends;
    }

    // The known order between these: arcs whose closure it is.
    template <class Arc> void known_arcs(const vector<vector<u32>> &ends, Arc arc) {
        const u32 none = ~0u;
        for (u32 s = 0; s < order.sessions; ++s) {
            vector<u32> told(order.sessions, none);  // by session, the first that the next one precedes
            for (size_t at = ends[s].size(); at-- > 0;) {
                const u32 v = order.first[s] + ends[s][at];
                if (at + 1 < ends[s].size()) arc(v, order.first[s] + ends[s][at + 1]);
                for (u32 other = 0; other < order.sessions; ++other) {
                    if (other == s) continue;
                    auto it = std::lower_bound(ends[other].begin(), ends[other].end(), order.after_of(v)[other]);
                    if (it == ends[other].end() || *it == told[other]) continue;
                    told[other] = *it;
                    arc(v, order.first[other] + *it);
                }
            }
        }
    }

    void write_problem(FILE *out, const vector<Pair> &pairs) {
        const auto ends = ends_of(pairs);
        std::unordered_map<u32, u32> names;
        for (u32 s = 0; s < order.sessions; ++s)
            for (u32 place : ends[s]) names.try_emplace(order.first[s] + place, u32(names.size() + 1));
        const size_t known = 2 * pairs.size() + 1;  // a variable that is true
        fprintf(out, "p cnf %zu %zu\nc graph %zu\n", known, known, names.size());
        auto arc = [&](size_t variable, u32 x, u32 y) {
            fprintf(out, "c arc %zu %u %u\n", variable, names[x], names[y]);
        };
        known_arcs(ends, [&](u32 x, u32 y) { arc(known, x, y); });
        for (size_t at = 0; at < pairs.size(); ++at)
            for (size_t side : {0, 1})
                for (auto [x, y] : pairs[at].sides[side]) arc(2 * at + side + 1, x, y);
        fprintf(out, "c endgraph\n%zu 0\n", known);
        for (size_t at = 0; at < pairs.size(); ++at)
            fprintf(out, "%zu %zu 0\n-%zu -%zu 0\n", 2 * at + 1, 2 * at + 2, 2 * at + 1, 2 * at + 2);
    }

    // The verdict, but for what is left open: "" if the solver has to say.
    string known_verdict() {
        if (!look_up()) found = "read of nobody's write";
        else if (!close()) found = "cycle of sessions and reads";
        else if (!add_early() || !force_all()) found = "cycle with forced overwrites";
        return found.empty() ? "" : "violated";
    }
};

// ---- the solver

// What clasp says about the problem in this file: "serial", "violated", or why neither.
static string solved(FILE *problem, const char *seconds) {
    rewind(problem);
    fflush(problem);
    lseek(fileno(problem), 0, SEEK_SET);
    int ends[2];
    if (pipe(ends)) return "undecided: no pipe";
    const pid_t child = fork();
    if (child < 0) return "undecided: no process";
    if (child == 0) {
        dup2(fileno(problem), 0);
        dup2(ends[1], 1);
        close(ends[0]);
        close(ends[1]);
        const string limit = string("--time-limit=") + seconds;
        execlp("clasp", "clasp", "--parse-ext", "--quiet=2", limit.c_str(), nullptr);
        _exit(127);
    }
    close(ends[1]);
    string said;
    char buffer[4096];
    for (ssize_t got; (got = read(ends[0], buffer, sizeof buffer)) > 0;) said.append(buffer, size_t(got));
    close(ends[0]);
    int status = 0;
    waitpid(child, &status, 0);
    if (WIFEXITED(status) && WEXITSTATUS(status) == 127) return "undecided: clasp isn't installed";
    if (said.find("s UNSATISFIABLE") != string::npos) return "violated";
    if (said.find("s SATISFIABLE") != string::npos) return "serial";
    if (said.find("s UNKNOWN") != string::npos) return "undecided: out of time";
    return "undecided: clasp has failed";
}

// The peak memory of this process or of a solver, in KiB. What getrusage says of this process would also
// count the one that started it.
static long peak() {
    rusage children;
    getrusage(RUSAGE_CHILDREN, &children);
    long own = 0;
    if (FILE *status = fopen("/proc/self/status", "r")) {
        char line[256];
        while (fgets(line, sizeof line, status)) sscanf(line, "VmHWM: %ld", &own);
        fclose(status);
    }
    return std::max(own, children.ru_maxrss);
}

static double milliseconds() {
    using namespace std::chrono;
    return duration<double, std::milli>(steady_clock::now().time_since_epoch()).count();
}

static void judge(const Script &script, double read_in, const char *seconds) {
    const double begin = milliseconds();
    Judge judge(script);
    string verdict = judge.known_verdict();
    double middle = milliseconds();
    if (verdict.empty()) {
        const vector<Pair> pairs = judge.open_pairs();
        judge.open = pairs.size();
        middle = milliseconds();
        verdict = "serial";
        if (!pairs.empty()) {
            FILE *problem = tmpfile();
            if (!problem) { perror("field_peer: no temporary file"); exit(2); }
            judge.write_problem(problem, pairs);
            verdict = solved(problem, seconds);
            fclose(problem);
            if (verdict == "violated") judge.found = "no order of open pairs";
        }
    }
    if (verdict == "serial" && judge.is_pending) verdict = "pending";
    const size_t colon = verdict.find(": ");
    const string why = colon == string::npos ? judge.found : verdict.substr(colon + 2);
    printf("{\"verdict\":\"%s\",\"found\":\"%s\",\"transactions\":%u,\"sessions\":%u,\"open\":%zu,"
           "\"read_ms\":%.1f,\"known_ms\":%.1f,\"solver_ms\":%.1f,\"peak_kib\":%ld}\n",
           verdict.substr(0, colon).c_str(), why.c_str(), judge.order.count, judge.order.sessions, judge.open,
           read_in, middle - begin, milliseconds() - middle, peak());
    fflush(stdout);
}

int main(int argc, char **argv) {
    const char *seconds = argc > 1 ? argv[1] : "600";
    char *text = nullptr;
    size_t room = 0;
    long number = 0;
    bool is_open = false;
    Script script;
    double begin = milliseconds();
    for (ssize_t length; (length = getline(&text, &room, stdin)) >= 0;) {
        if (length && text[length - 1] == '\n') --length;
        Line line{text, text + length, ++number};
        const bool opens = line.word("[\"open\",");
        if (opens && is_open) {
            judge(script, milliseconds() - begin, seconds);
            begin = milliseconds();
        }
        if (opens) {
            script.assign(line.whole(), {});
            is_open = true;
        } else if (line.word("[\"offer\",")) {
            if (!is_open) line.refuse("an opening");
            take_offer(line, script);
        }
    }
    free(text);
    if (is_open) judge(script, milliseconds() - begin, seconds);
    return 0;
}
