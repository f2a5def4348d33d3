// The pairing search written a second time, from its definitions alone: a block list on standard input, five lines or one
// refusal on standard output. It is meant to be plain; what it prints is held against the proved program byte for byte.
// Look at `Search::node` for the search, at `colour` and `path` for the two rules, at `list_fault` for the refusals.

#include <algorithm>
#include <array>
#include <bit>
#include <cinttypes>
#include <cstdint>
#include <cstdio>
#include <cstring>
#include <ctime>
#include <memory>
#include <optional>
#include <string>
#include <vector>

namespace {

constexpr int most_candidates = 256;
constexpr std::uint64_t grant_size = 1'000'000;
constexpr int most_grants = 50;

// ---- Sets of candidates ----

struct Set {
    std::array<std::uint64_t, 4> words{};

    void add(int v) { words[v / 64] |= std::uint64_t{1} << (v % 64); }
    void remove(int v) { words[v / 64] &= ~(std::uint64_t{1} << (v % 64)); }
    bool empty() const { return (words[0] | words[1] | words[2] | words[3]) == 0; }

    // Asked only of a set that has a member.
    int lowest() const {
        int at = 0;
        while (words[at] == 0) ++at;
        return at * 64 + std::countr_zero(words[at]);
    }

    // Does `act` with each member, upwards.
    template <class Act>
    void each(Act act) const {
        for (int i = 0; i < 4; ++i)
            for (std::uint64_t word = words[i]; word != 0; word &= word - 1) act(i * 64 + std::countr_zero(word));
    }

    Set within(const Set& other) const {
        Set both;
        for (int i = 0; i < 4; ++i) both.words[i] = words[i] & other.words[i];
        return both;
    }

    Set without(const Set& other) const {
        Set rest;
        for (int i = 0; i < 4; ++i) rest.words[i] = words[i] & ~other.words[i];
        return rest;
    }
};

// The members of a set, upwards.
struct Members {
    std::array<std::uint8_t, most_candidates> at;
    int count = 0;

    explicit Members(const Set& set) {
        set.each([this](int v) { at[count++] = static_cast<std::uint8_t>(v); });
    }
    const std::uint8_t* begin() const { return at.data(); }
    const std::uint8_t* end() const { return at.data() + count; }
};

// ---- Sheets ----

struct Sheet {
    int n = 0;
    std::array<std::array<std::uint16_t, most_candidates>, most_candidates> points{};  // 0 for two that don't fit
    std::array<Set, most_candidates> fits{};

    void join(int u, int v, std::uint16_t earned) {
        points[u][v] = points[v][u] = earned;
        fits[u].add(v);
        fits[v].add(u);
    }
};

std::uint64_t weight(const Sheet& sheet, const Members& members) {
    std::uint64_t sum = 0;
    for (int i = 0; i < members.count; ++i) {
        const auto& row = sheet.points[members.at[i]];
        for (int j = 0; j < i; ++j) sum += row[members.at[j]];
    }
    return sum;
}

// ---- Block lists ----

using Bytes = std::vector<std::uint8_t>;

constexpr std::size_t block_size = 512;
constexpr std::size_t check_at = 508;
constexpr std::size_t most_input = 65'536;
constexpr std::size_t most_list = 133'120;
constexpr int full_block = 126;
constexpr int no_points = 65'535;

struct Fault {
    int number;
    const char* layer;
    int block = -1;  // -1 where there is no such place
    int record = -1;
};

struct Record {
    int u, v, points;
};

int blocks_of(const Bytes& list) { return static_cast<int>(list.size() / block_size); }

const std::uint8_t* block_of(const Bytes& list, int block) { return list.data() + block * block_size; }

int count_of(const Bytes& list, int block) { return block_of(list, block)[2]; }

Record record_of(const Bytes& list, int block, int record) {
    const std::uint8_t* at = block_of(list, block) + 4 + 4 * record;
    return {at[0], at[1], at[2] | at[3] << 8};
}

bool check_right(const std::uint8_t* block) {
    std::uint32_t sum = 0;
    for (std::size_t i = 0; i < check_at; ++i) sum += static_cast<std::uint32_t>(i + 1) * block[i];
    std::uint32_t stated = 0;
    for (int i = 0; i < 4; ++i) stated |= static_cast<std::uint32_t>(block[check_at + i]) << (8 * i);
    return sum == stated;
}

bool count_right(int count, int place, int blocks) {
    if (place + 1 < blocks) return count == full_block;
    return count <= full_block && (count >= 1 || blocks == 1);
}

bool rest_zero(const std::uint8_t* block) {
    return std::all_of(block + 4 + 4 * block[2], block + check_at, [](std::uint8_t byte) { return byte == 0; });
}

std::optional<Fault> block_fault(const Bytes& list, int place) {
    const std::uint8_t* block = block_of(list, place);
    if (!check_right(block)) return Fault{12, "block", place};
    if ((block[0] | block[1] << 8) != place) return Fault{13, "block", place};
    if (block[3] != list[3]) return Fault{14, "list", place};
    if (!count_right(block[2], place, blocks_of(list))) return Fault{15, "block", place};
    if (!rest_zero(block)) return Fault{16, "block", place};
    return std::nullopt;
}

// Asked once all blocks have passed. `before` is the place of the pair before in the order by v and then by u, and is moved on.
std::optional<Fault> record_fault(const Bytes& list, int block, int record, int& before) {
    const auto [u, v, points] = record_of(list, block, record);
    const int n = list[3] + 1;
    if (!(u < v && v < n)) return Fault{17, "list", block, record};
    const int here = v * most_candidates + u;
    if (here <= before) return Fault{18, "list", block, record};
    if (points >= no_points) return Fault{19, "list", block, record};
    before = here;
    return std::nullopt;
}

// The first question about the input that is answered no.
std::optional<Fault> list_fault(const Bytes& list) {
    if (list.size() > most_input) return Fault{10, "program"};
    if (list.size() < block_size || list.size() > most_list || list.size() % block_size != 0) return Fault{11, "list"};
    for (int block = 0; block < blocks_of(list); ++block)
        if (const auto fault = block_fault(list, block)) return fault;
    int before = -1;
    for (int block = 0; block < blocks_of(list); ++block)
        for (int record = 0; record < count_of(list, block); ++record)
            if (const auto fault = record_fault(list, block, record, before)) return fault;
    return std::nullopt;
}

// The sheet of a list without fault.
std::unique_ptr<Sheet> sheet_of(const Bytes& list) {
    auto sheet = std::make_unique<Sheet>();
    sheet->n = list[3] + 1;
    for (int block = 0; block < blocks_of(list); ++block)
        for (int record = 0; record < count_of(list, block); ++record) {
            const auto [u, v, points] = record_of(list, block, record);
            sheet->join(u, v, static_cast<std::uint16_t>(points));
        }
    return sheet;
}

// ---- Bounding rules ----

using Sums = std::array<std::uint64_t, most_candidates>;  // by candidate; only the entries of S are set

// What each member of S earns with the members of C together.
void rho(const Sheet& sheet, const Members& c, const Members& s, Sums& sums) {
    for (const int v : s) {
        const auto& row = sheet.points[v];
        std::uint64_t sum = 0;
        for (const int u : c) sum += row[u];
        sums[v] = sum;
    }
}

// The member of least sigma, the lowest on a tie. Asked only of a set that has a member.
int least(const Set& set, const Sums& sigma) {
    int best = set.lowest();
    set.each([&](int v) {
        if (sigma[v] < sigma[best]) best = v;
    });
    return best;
}

// Takes one colour class out of `uncoloured`: the least sigma first, and no two that fit.
Set colour_class(const Sheet& sheet, const Sums& sigma, Set& uncoloured, std::uint64_t& greatest) {
    Set members;
    greatest = 0;
    for (Set open = uncoloured; !open.empty();) {
        const int v = least(open, sigma);
        members.add(v);
        greatest = std::max(greatest, sigma[v]);
        uncoloured.remove(v);
        open.remove(v);
        open = open.without(sheet.fits[v]);
    }
    return members;
}

std::uint64_t colour(const Sheet& sheet, const Set& s, Sums sigma) {
    std::uint64_t number = 0;
    for (Set uncoloured = s; !uncoloured.empty();) {
        std::uint64_t greatest;
        const Members members(colour_class(sheet, sigma, uncoloured, greatest));
        number += greatest;
        uncoloured.each([&](int v) {
            const auto& row = sheet.points[v];
            std::uint16_t raise = 0;
            for (const int u : members) raise = std::max(raise, row[u]);
            sigma[v] += raise;
        });
    }
    return number;
}

// The fit of u and v is asked of the row of v, so that two that fit and earn nothing count as fitting.
std::uint64_t path(const Sheet& sheet, const Members& s, const Sums& sums) {
    Sums length;
    std::uint64_t number = 0;
    for (int i = 0; i < s.count; ++i) {
        const int v = s.at[i];
        const auto& row = sheet.points[v];
        const Set& fits = sheet.fits[v];
        std::uint64_t own = sums[v], longest = 0;
        for (int j = 0; j < i; ++j) {
            const int u = s.at[j];
            own += row[u];
            if (fits.words[u / 64] >> (u % 64) & 1) longest = std::max(longest, length[u]);
        }
        length[v] = own + longest;
        number = std::max(number, length[v]);
    }
    return number;
}

std::uint64_t lesser_rule(const Sheet& sheet, const Members& c, const Set& s) {
    const Members members(s);
    Sums sums;
    rho(sheet, c, members, sums);
    return std::min(colour(sheet, s, sums), path(sheet, members, sums));
}

// ---- The search ----

struct Frame {
    Set c, s;
    std::uint64_t mark;
};

struct Held {
    Set set;
    std::uint64_t weight;
};

class Search {
public:
    explicit Search(const Sheet& sheet) : sheet_(sheet) {
        Frame root{};
        for (int v = 0; v < sheet.n; ++v) root.s.add(v);
        root.mark = weight(sheet, Members(root.s));
        stack_.reserve(most_candidates + 1);
        stack_.push_back(root);
    }

    bool finished() const { return stack_.empty(); }
    const std::optional<Held>& held() const { return held_; }

    std::uint64_t ceiling() const {
        std::uint64_t greatest = held_ ? held_->weight : 0;
        for (const Frame& frame : stack_) greatest = std::max(greatest, frame.mark);
        return greatest;
    }

    // Does nodes until `most` are done or the search is finished; answers how many were done.
    std::uint64_t grant(std::uint64_t most) {
        std::uint64_t done = 0;
        for (; done < most && !finished(); ++done) node();
        return done;
    }

private:
    void node() {
        Frame& top = stack_.back();
        const Members clique(top.c);
        const std::uint64_t reached = weight(sheet_, clique);
        if (top.s.empty()) {
            if (!held_ || reached > held_->weight) held_ = Held{top.c, reached};
            stack_.pop_back();
            return;
        }
        const std::uint64_t bound = reached + lesser_rule(sheet_, clique, top.s);
        if (held_ && bound <= held_->weight) {
            stack_.pop_back();
            return;
        }
        top.mark = std::min(top.mark, bound);
        const int v = top.s.lowest();
        top.s.remove(v);
        Frame next{top.c, top.s.within(sheet_.fits[v]), top.mark};
        next.c.add(v);
        stack_.push_back(next);
    }

    const Sheet& sheet_;
    std::vector<Frame> stack_;
    std::optional<Held> held_;
};

// ---- The program ----

struct Report {
    Held held;
    std::uint64_t ceiling;
    bool finished;
    std::uint64_t nodes;
};

Report searched(const Sheet& sheet) {
    Search search(sheet);
    std::uint64_t nodes = 0;
    for (int grants = 0; grants < most_grants && !search.finished(); ++grants) nodes += search.grant(grant_size);
    return {search.held().value_or(Held{}), search.ceiling(), search.finished(), nodes};
}

double processor_seconds() {
    timespec now;
    clock_gettime(CLOCK_PROCESS_CPUTIME_ID, &now);
    return static_cast<double>(now.tv_sec) + 1e-9 * static_cast<double>(now.tv_nsec);
}

// A short search is repeated, so that the clock has something to measure.
void print_time(const Sheet& sheet) {
    const double start = processor_seconds();
    std::uint64_t nodes = 0;
    int runs = 0;
    double spent = 0;
    for (; runs == 0 || spent < 0.3; ++runs) {
        nodes = searched(sheet).nodes;
        spent = processor_seconds() - start;
    }
    std::fprintf(stderr, "nodes %" PRIu64 " seconds %.9f\n", nodes, spent / runs);
}

std::string place_text(int place) { return place < 0 ? "-" : std::to_string(place); }

void print_refusal(const Fault& fault) {
    std::printf("refused %d layer %s block %s record %s\n", fault.number, fault.layer, place_text(fault.block).c_str(),
                place_text(fault.record).c_str());
}

void print_report(int n, const Report& report) {
    std::printf("candidates %d\nset", n);
    for (const int v : Members(report.held.set)) std::printf(" %d", v);
    std::printf("\npoints %" PRIu64 "\nceiling %" PRIu64 "\n", report.held.weight, report.ceiling);
    std::printf("finished %s nodes %" PRIu64 "\n", report.finished ? "yes" : "no", report.nodes);
}

// One byte more than is allowed is enough to know that there are too many.
Bytes standard_input() {
    Bytes bytes(most_input + 1);
    bytes.resize(std::fread(bytes.data(), 1, bytes.size(), stdin));
    return bytes;
}

}  // namespace

int main(int argc, char** argv) {
    const bool timed = argc > 1 && std::strcmp(argv[1], "--time") == 0;
    const Bytes list = standard_input();
    if (const auto fault = list_fault(list)) {
        print_refusal(*fault);
        return 0;
    }
    const auto sheet = sheet_of(list);
    print_report(sheet->n, searched(*sheet));
    if (timed) print_time(*sheet);
    return 0;
}
