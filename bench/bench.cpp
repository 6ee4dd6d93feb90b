// bench ESCAPE EMPTY JOB..: the library and the plain router on the same jobs, the program ESCAPE less the empty program EMPTY beside the libraries of
// peers.h, and each operation on full and idle records, as tables in Markdown. Times are those of the processor, so that other work on the machine counts
// little. Ends with status 1 where two greatest numbers or two least lengths differ.
#include "baseline.h"
#include "peers.h"
#include "talusdish.h"

#include <cstdint>
#include <cstdlib>
#include <ctime>
#include <fstream>
#include <functional>
#include <iterator>

#include <fcntl.h>
#include <sys/resource.h>
#include <sys/wait.h>
#include <unistd.h>

namespace {

using Bytes = std::vector<uint8_t>;

double now() { // microseconds
    timespec t;
    clock_gettime(CLOCK_PROCESS_CPUTIME_ID, &t);
    return 1e6 * static_cast<double>(t.tv_sec) + 1e-3 * static_cast<double>(t.tv_nsec);
}

double median(std::vector<double> times) {
    std::sort(times.begin(), times.end());
    return times[times.size() / 2];
}

const uint8_t *bytes(const std::string &text) { return reinterpret_cast<const uint8_t *>(text.data()); }

// A record with the scratch and the output that its calls are lent.
struct Host {
    Bytes record = Bytes(TALUSDISH_RECORD), scratch = Bytes(TALUSDISH_SCRATCH), output = Bytes(TALUSDISH_RECORD);

    uint64_t read(const std::string &text) { return talusdish_read_text(record.data(), record.size(), bytes(text), text.size()); }
    uint64_t step() { return talusdish_step(record.data(), record.size(), scratch.data(), scratch.size()); }
    uint64_t shortfall() {
        return talusdish_shortfall(record.data(), record.size(), scratch.data(), scratch.size(), output.data(), output.size());
    }

    // Steps until no wire more fits; how many were added, and the microseconds of the last step, which adds none.
    uint64_t fill(double &last) {
        uint64_t wires = 0;
        for (;;) {
            const double start = now();
            const bool more = step() == 0;
            last = now() - start;
            if (!more) return wires;
            wires++;
        }
    }
};

struct Timed {
    uint64_t wires, lack;
    double reading, stepping, last, lacking;
    double whole() const { return reading + stepping + last + lacking; }
};

// From empty buffers to the last answer.
Timed run(const std::string &text) {
    Host host;
    Timed t;
    const double a = now();
    const uint64_t read = host.read(text);
    const double b = now();
    t.wires = host.fill(t.last);
    const double c = now();
    const uint64_t lack = host.shortfall();
    const double d = now();
    if (read != 0 || TALUSDISH_CODE(lack) != 0) {
        std::fprintf(stderr, "a job was refused by %d\n", static_cast<int>(read ? TALUSDISH_CODE(read) : TALUSDISH_CODE(lack)));
        std::exit(1);
    }
    t.lack = TALUSDISH_VALUE(lack);
    t.reading = b - a;
    t.stepping = c - b - t.last;
    t.lacking = d - c;
    return t;
}

// One row of the first table; whether the two agree.
bool compare(const std::string &name, const std::string &text) {
    baseline::Job job;
    baseline::Answer plain{};
    std::vector<double> times;
    for (int i = 0; i < 5; i++) {
        const double start = now();
        baseline::read(text, job);
        plain = baseline::route(job);
        times.push_back(now() - start);
    }
    const double other = median(times);
    std::vector<Timed> runs;
    for (double spent = 0; runs.size() < 5 && spent < 5e6; spent += runs.back().whole()) runs.push_back(run(text));
    std::sort(runs.begin(), runs.end(), [](const Timed &x, const Timed &y) { return x.whole() < y.whole(); });
    const Timed t = runs[runs.size() / 2];
    std::printf("| %s | %d × %d | %d | %d | %.2f | %.1f | %.0f | %.1f | %.1f | %.1f | %.1f | %.1f |\n", name.c_str(), job.rows, job.columns, plain.chosen,
                static_cast<int>(t.wires), t.reading / 1e3, t.stepping / 1e3, t.stepping / static_cast<double>(t.wires + 1), t.last / 1e3, t.lacking / 1e3,
                t.whole() / 1e3, other / 1e3, t.whole() / other);
    const bool agree = t.wires == static_cast<uint64_t>(plain.greatest) && t.wires + t.lack == static_cast<uint64_t>(plain.chosen);
    if (!agree)
        std::fprintf(stderr, "%s: %d wires, lacking %d; the plain router has %d of %d\n", name.c_str(), static_cast<int>(t.wires),
                     static_cast<int>(t.lack), plain.greatest, plain.chosen);
    return agree;
}

// Microseconds of a program that reads a file.
double process(const char *program, const std::string &input) {
    const pid_t child = fork();
    if (child == 0) {
        if (dup2(open(input.c_str(), O_RDONLY), 0) == 0 && dup2(open("/dev/null", O_WRONLY), 1) == 1) execl(program, program, nullptr);
        _exit(127);
    }
    int status = 0;
    rusage used{};
    if (child < 0 || wait4(child, &status, 0, &used) != child || !WIFEXITED(status) || WEXITSTATUS(status) != 0) {
        std::fprintf(stderr, "%s failed\n", program);
        std::exit(1);
    }
    const auto micros = [](const timeval &t) { return 1e6 * static_cast<double>(t.tv_sec) + static_cast<double>(t.tv_usec); };
    return micros(used.ru_utime) + micros(used.ru_stime);
}

// The least of so many times in which all were measured in turn.
constexpr int turns = 25;

// One row of the table of the program; whether all agree.
bool beside(const char *escape, const char *empty, const std::vector<peers::Peer> &others, const std::string &name, const std::string &path,
            const std::string &text) {
    baseline::Job job;
    baseline::read(text, job);
    const int greatest = baseline::route(job).greatest;
    double own = 1e12, nothing = 1e12;
    std::vector<double> least(others.size(), 1e12);
    bool agree = true;
    for (int i = 0; i < turns; i++) {
        own = std::min(own, process(escape, path));
        nothing = std::min(nothing, process(empty, path));
        for (std::size_t k = 0; k < others.size(); k++) {
            const double start = now();
            agree = others[k].greatest(job) == greatest && agree;
            least[k] = std::min(least[k], now() - start);
        }
    }
    std::printf("| %s | %.2f |", name.c_str(), (own - nothing) / 1e3);
    for (double t : least) std::printf(" %.2f |", t / 1e3);
    if (!least.empty()) std::printf(" %.2f |", (own - nothing) / *std::min_element(least.begin(), least.end()));
    std::printf("\n");
    if (!agree) std::fprintf(stderr, "%s: a library finds another number\n", name.c_str());
    return agree;
}

#ifdef HAS_LEMON
// The number behind the word `(length` of the record's listing.
long listed(Host &host) {
    std::vector<uint8_t> page(1 << 20);
    const uint64_t word = talusdish_listing(host.record.data(), host.record.size(), page.data(), page.size());
    const std::string text(page.begin(), page.begin() + static_cast<long>(TALUSDISH_VALUE(word)));
    return std::atol(text.c_str() + text.rfind("(length ") + 8);
}

// One row of the table of the least length, of a job that is not short; whether both find the same.
bool shortest(const char *escape, const char *empty, const std::string &name, const std::string &path, const std::string &text) {
    baseline::Job job;
    baseline::read(text, job);
    double own = 1e12, nothing = 1e12, first = 1e12, again = 1e12, other = 1e12;
    long least = 0;
    bool agree = true;
    for (int i = 0; i < turns; i++) {
        Host host;
        host.read(text);
        double last;
        host.fill(last);
        first = std::min(first, last);
        const double start = now();
        host.step();
        again = std::min(again, now() - start);
        own = std::min(own, process(escape, path));
        nothing = std::min(nothing, process(empty, path));
        const double before = now();
        least = peers::networkSimplex(job);
        other = std::min(other, now() - before);
        agree = agree && least == listed(host);
    }
    std::printf("| %s | %ld | %.2f | %.2f | %.2f | %.2f | %.2f | %.2f |\n", name.c_str(), least, first / 1e3, again / 1e3, (own - nothing) / 1e3, other / 1e3,
                first / other, (own - nothing) / other);
    if (!agree) std::fprintf(stderr, "%s: the library finds another length\n", name.c_str());
    return agree;
}

bool shortestTable(const char *escape, const char *empty, const std::vector<std::string> &paths, const std::function<std::string(const std::string &)> &name,
                   const std::function<std::string(const std::string &)> &contents) {
    std::printf("\nMilliseconds of the \"all wired\" that shortens, of one more, and of the program `escape` less an empty program, beside LEMON's network simplex, which is handed the job; the least of %d turns. Ratios: the first and the program by the library.\n\n", turns);
    std::printf("| job | least length | \"all wired\" | again | `escape` | network simplex | ratio | ratio of `escape` |\n|---|---|---|---|---|---|---|---|\n");
    bool agree = true;
    for (const std::string &path : paths) {
        baseline::Job job;
        baseline::read(contents(path), job);
        const baseline::Answer plain = baseline::route(job);
        if (plain.greatest == plain.chosen) agree = shortest(escape, empty, name(path), path, contents(path)) && agree;
        std::fflush(stdout);
    }
    return agree;
}
#endif

// Microseconds of a call on a host, which `prepare` makes ready outside the time.
double each(const std::function<void()> &prepare, const std::function<uint64_t()> &call) {
    std::vector<double> times;
    for (double spent = 0; times.size() < 5 || (times.size() < 1001 && spent < 3e5); spent += times.back()) {
        prepare();
        const double start = now();
        volatile uint64_t word = call();
        (void)word;
        times.push_back(now() - start);
    }
    return median(times);
}

struct Cell {
    uint64_t row = 0, column = 0;
};

// The columns of the table of operations: a record that is kept, the text of its job, a chosen pin with a wire and an idle pin, each the nearest
// to the middle where there is one, the open tile whose places have the most wires between them, and the side of a tile that has the most wires.
struct Column {
    Host host;
    Bytes kept;
    std::string text;
    Cell chosen, idle, tile, side;
    uint64_t code = 0, wires = 0;

    explicit Column(const std::string &job) : text(job) {
        host.read(text);
        double last;
        host.fill(last);
        kept = host.record;
        baseline::Job read;
        baseline::read(text, read);
        chosen = middle([&](int i) { return read.mark[i] == 1 && inside(i, 12, 17) > 0; });
        idle = middle([&](int i) { return read.mark[i] == 0; });
        int most = -1;
        for (int i = 0; i < 1600; i++)
            if (i / 40 < 39 && i % 40 < 39 && kept[2368 + i] == 0 && inside(i, 4, 12) > most) {
                most = inside(i, 4, 12);
                tile = cell(i);
            }
        for (int i = 0; i < 3200; i++)
            if (i % 1600 / 40 < 39 && i % 40 < 39 && kept[3968 + i] % 32 > wires) {
                wires = kept[3968 + i] % 32;
                code = i < 1600 ? 0 : 3;
                side = cell(i % 1600);
            }
    }

    // The wires on the cell's links of the planes from `first` on, below `end`.
    int inside(int i, int first, int end) const {
        int wires = 0;
        for (int p = first; p < end; p++) wires += kept[768 + 1600 * p + i] % 32;
        return wires;
    }

    static Cell cell(int i) { return {static_cast<uint64_t>(i / 40), static_cast<uint64_t>(i % 40)}; }

    // The cell that passes the test and is nearest to the middle; the first where none does.
    static Cell middle(const std::function<bool(int)> &test) {
        int best = 1000, found = 0;
        for (int i = 0; i < 1600; i++) {
            const int far = std::abs(2 * (i / 40) - 39) + std::abs(2 * (i % 40) - 39);
            if (far < best && test(i)) best = far, found = i;
        }
        return cell(found);
    }

    // As many wires laid on that side as leave room for all of its wires but one.
    uint64_t lay(Host &h) const {
        return talusdish_lay(h.record.data(), h.record.size(), side.row, side.column, code, wires == 0 ? 1 : kept[2] - wires + 1);
    }

    double time(const std::function<uint64_t(Host &)> &call) {
        return each([&] { host.record = kept; }, [&] { return call(host); });
    }
};

void table(std::vector<Column> &columns) {
    const auto line = [&](const char *name, const std::function<uint64_t(Column &, Host &)> &call) {
        std::printf("| %s |", name);
        for (Column &c : columns) std::printf(" %.1f |", c.time([&](Host &h) { return call(c, h); }));
        std::printf("\n");
    };
    Bytes text(576240);
    line("New", [](Column &, Host &h) { return talusdish_new(h.record.data(), h.record.size(), 40, 40, 8, 12, 8); });
    line("Read text", [](Column &c, Host &h) { return h.read(c.text); });
    line("Write text", [&](Column &, Host &h) { return talusdish_write_text(h.record.data(), h.record.size(), text.data(), text.size()); });
    const auto mark = [](Host &h, Cell c, uint64_t value) { return talusdish_mark(h.record.data(), h.record.size(), c.row, c.column, value); };
    const auto close = [](Host &h, Cell c, uint64_t value) { return talusdish_close(h.record.data(), h.record.size(), c.row, c.column, value); };
    line("Mark, the mark already there (the audit)", [&](Column &c, Host &h) {
        return mark(h, c.chosen, h.record[768 + 40 * c.chosen.row + c.chosen.column]);
    });
    line("Mark, another, of an idle pin", [&](Column &c, Host &h) { return mark(h, c.idle, 1); });
    line("Mark, another, of a pin with a wire", [&](Column &c, Host &h) { return mark(h, c.chosen, 2); });
    line("Close, the state already there (the audit)", [&](Column &, Host &h) { return close(h, Cell(), h.record[2368]); });
    line("Close, the tile with the most wires", [&](Column &c, Host &h) { return close(h, c.tile, 1); });
    line("Close, a tile at the corner", [&](Column &, Host &h) { return close(h, Cell(), 1 - h.record[2368]); });
    line("`lay`, one wire of the fullest side goes", [](Column &c, Host &h) { return c.lay(h); });
    line("Part at 0", [](Column &c, Host &h) { return talusdish_part(h.record.data(), h.record.size(), c.chosen.row, c.chosen.column, 0); });
    line("Part past the end", [](Column &c, Host &h) { return talusdish_part(h.record.data(), h.record.size(), c.chosen.row, c.chosen.column, 100000); });
    line("Step, nothing to add", [](Column &, Host &h) { return h.step(); });
    line("Shortfall", [](Column &, Host &h) { return h.shortfall(); });
}

std::string contents(const std::string &name) {
    std::ifstream file(name, std::ios::binary);
    return {std::istreambuf_iterator<char>(file), {}};
}

} // namespace

int main(int count, char **words) {
    if (count < 4) return 2;
    const char *escape = words[1], *empty = words[2];
    const std::vector<std::string> paths(words + 3, words + count);
    const std::string folder = paths[0].substr(0, paths[0].rfind('/') + 1);
    const auto name = [&](const std::string &path) { return path.substr(folder.size(), path.rfind('.') - folder.size()); };
    bool agree = true;
    std::printf("Milliseconds, the median of up to five runs; ratio: the whole by the plain router.\n\n");
    std::printf("| job | array | chosen | wires | Read text | Steps that add | µs a Step | the last Step | Shortfall | whole | plain router | ratio |\n");
    std::printf("|---|---|---|---|---|---|---|---|---|---|---|---|\n");
    for (const std::string &path : paths) {
        agree = compare(name(path), contents(path)) && agree;
        std::fflush(stdout);
    }
    const std::vector<peers::Peer> others = peers::installed();
    std::printf("\nMilliseconds of the program `escape` less those of an empty program, beside libraries that are handed the job (the greatest number alone), the least of %d turns; ratio: by the least of the libraries.\n\n| job | `escape` |", turns);
    for (const peers::Peer &p : others) std::printf(" %s |", p.name);
    std::printf(others.empty() ? "\n|---|---|" : " ratio |\n|---|---|---|");
    for (std::size_t i = 0; i < others.size(); i++) std::printf("---|");
    std::printf("\n");
    for (const std::string &path : paths) {
        agree = beside(escape, empty, others, name(path), path, contents(path)) && agree;
        std::fflush(stdout);
    }
#ifdef HAS_LEMON
    agree = shortestTable(escape, empty, paths, name, contents) && agree;
#else
    std::fprintf(stderr, "LEMON's network simplex is not measured: liblemon-dev is not installed\n");
#endif
    std::printf("\nMicroseconds for a call on a record of 40 by 40 pins, the median: idle; full_wired stepped to \"all wired\"; full_short stepped to \"short\".\n\n");
    std::printf("| operation | idle | all wired | short |\n|---|---|---|---|\n");
    std::vector<Column> columns;
    columns.emplace_back("(array (pins 40 40) (caps 8 12 8))\n(end)\n");
    columns.emplace_back(contents(folder + "full_wired.job"));
    columns.emplace_back(contents(folder + "full_short.job"));
    table(columns);
    return agree ? 0 : 1;
}
