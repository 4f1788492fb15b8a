// peers FILE [PACKAGE=VERSION..]: compares the peers that were built in and writes FILE, docs/PEERS.md. A package without a version is missing.
#include "damage.hpp"
#include "speed.hpp"
#include <cstdarg>
#include <fstream>

#ifdef __clang__
#define COMPILER "clang++"
#else
#define COMPILER "g++"
#endif

namespace peers {

std::vector<Listed> &all() {
    static std::vector<Listed> listed;
    return listed;
}

static const char *name_of(const Listed &peer) { return peer.coder ? peer.coder->name() : peer.store->name(); }
static const char *about(const Listed &peer) { return peer.coder ? peer.coder->about() : peer.store->about(); }

static std::string format(const char *form, ...) {
    char text[256];
    va_list items;
    va_start(items, form);
    std::vsnprintf(text, sizeof text, form, items);
    va_end(items);
    return text;
}

// A whole number with a comma before every third digit from the right.
static std::string grouped(double number) {
    std::string text = format("%.0f", number);
    for (int at = int(text.size()) - 3; at > 0; at -= 3) text.insert(size_t(at), ",");
    return text;
}

static std::string processor() {
    std::ifstream file("/proc/cpuinfo");
    for (std::string line; std::getline(file, line);) {
        if (line.rfind("model name", 0) == 0) return line.substr(line.find(':') + 2);
    }
    return "unknown";
}

static std::string heading(const char *first) {
    std::string text = format("| %s |", first), under = "|---|";
    for (const Listed &peer : all()) {
        text += format(" %s |", name_of(peer));
        under += "---:|";
    }
    return text + "\n" + under + "\n";
}

// A row for each input, a column for each peer.
template <class Cell> std::string table(const std::vector<Input> &inputs, const std::vector<std::vector<Measured>> &rows, Cell cell) {
    std::string text = heading("input");
    for (size_t i = 0; i < inputs.size(); i++) {
        text += "| " + inputs[i].name + " |";
        for (const Measured &measured : rows[i]) text += " " + cell(measured) + " |";
        text += "\n";
    }
    return text;
}

// The cells behind a row's first.
static std::string damage_cells(const Listed &peer, const Counts &counts) {
    auto cell = [](size_t count) { return " " + grouped(double(count)) + " |"; };
    std::string unwritten = peer.coder ? cell(counts.unwritten()) : " - |";
    return format(" %s |", name_of(peer)) + cell(counts.of[REFUSED]) + cell(counts.of[NO_SET]) + cell(counts.taken()) + cell(counts.another()) + unwritten +
           cell(counts.of[CRASHED]) + cell(counts.of[STOPPED]) + "\n";
}

static std::string damage_tables(const std::string &folder) {
    const std::string head = "| reader | refused | no set | taken for a set | of these another set | of these by no writer | crashed | stopped |\n"
                             "|---|---:|---:|---:|---:|---:|---:|---:|\n";
    std::string text, rows = "| input |" + head.substr(1);
    rows.insert(rows.find("|---|"), "|---");
    std::vector<Input> inputs = damaged_inputs();
    std::vector<Counts> sums(all().size());
    for (const Input &input : inputs) {
        std::vector<Counts> counts = damage_all(input, folder);
        for (size_t i = 0; i < counts.size(); i++) {
            std::string row = "| " + input.name + " |" + damage_cells(all()[i], counts[i]);
            std::fputs(row.c_str(), stdout);
            std::fflush(stdout);
            rows += row;
            for (size_t k = 0; k < OUTCOMES; k++) sums[i].of[k] += counts[i].of[k];
        }
    }
    text += "All inputs, " + grouped(double(TRIALS * inputs.size())) + " changes:\n\n" + head;
    for (size_t i = 0; i < sums.size(); i++) text += "|" + damage_cells(all()[i], sums[i]);
    return text + "\nEach input, " + grouped(double(TRIALS)) + " changes:\n\n" + rows;
}

static std::string packages(int count, char **named) {
    std::string here, missing;
    for (int i = 0; i < count; i++) {
        std::string text = named[i];
        size_t at = text.find('=');
        std::string version = text.substr(at + 1), name = text.substr(0, at);
        std::string &list = version.empty() ? missing : here;
        list += (list.empty() ? "" : ", ") + name + (version.empty() ? "" : " " + version);
    }
    return (here.empty() ? "none" : here) + (missing.empty() ? "" : ". Missing here, so their columns are too: " + missing);
}

static std::string page(int count, char **named, const std::string &folder) {
    std::vector<Input> sets = inputs();
    std::vector<std::vector<Measured>> rows;
    for (const Input &input : sets) {
        rows.push_back(measure(input, folder));
        for (size_t i = 0; i < rows.back().size(); i++) {
            const Measured &measured = rows.back()[i];
            std::printf("| %s | %s | %.1f | %.2f | %.2f |\n", input.name.c_str(), name_of(all()[i]), measured.bytes, measured.write, measured.read);
        }
        std::fflush(stdout);
    }
    std::string text = "# Peers\n\nWritten by `host/peers/run.sh`; don't edit it. Processor: " + processor() + ". Debian packages: " + packages(count, named) +
                       ". Compiler: " COMPILER " " __VERSION__ ".\n\n"
                       "The same sets, those of docs/BENCHMARK.md, kept as bytes in several ways. Only the first column is proved, and only it keeps the bytes that the specification "
                       "names: the others answer other wishes too (CRoaring works on sets as they lie, the stores keep them on disk and find them by key).\n\n";
    for (const Listed &peer : all()) text += format("- %s: ", name_of(peer)) + about(peer) + "\n";
    text += "\nRoadfinch's archive is as `rt lib` builds it, the libraries as Debian built them; the rest is compiled with `-std=c++17 -O2 -DNDEBUG`. "
            "Debian 12's CRoaring and StreamVByte are built for any 64-bit x86 processor, without the vector instructions that both have code for, and its StreamVByte "
            "without optimisation: built otherwise they are faster than here.\n\n"
            "## Bytes a set\n\n"
            "The mean where there are several sets. Of a store: its file over the sets in it, where each single set is put " + std::to_string(COPIES) + " times.\n\n";
    text += table(sets, rows, [](const Measured &it) { return it.bytes < 100 ? format("%.1f", it.bytes) : grouped(it.bytes); });
    text += "\n## Writing\n\n"
            "Nanoseconds an id, from an ascending array of 32-bit numbers to the bytes in memory that was written before. CRoaring makes its bitmap first, "
            "since that is how it writes. Of a store: a transaction that puts all sets into a fresh file, without waiting for the disk (opening it isn't counted). The shortest of " +
            std::to_string(ROUNDS) + " rounds, in turn; a round is so many calls as take " + format("%.0f", ROUND_SECONDS * 1e3) + " ms, of a store one call.\n\n";
    text += table(sets, rows, [](const Measured &it) { return format("%.2f", it.write); });
    text += "\n## Reading\n\n"
            "Nanoseconds an id, from the bytes to an array of 32-bit numbers. Of a store: a transaction that gets and decodes all sets, one after the other, "
            "from a file that was read before. Only Roadfinch tests here that the ids ascend and are below N, and that these bytes are the set's only ones; "
            "what the others test stands above and shows below.\n\n";
    text += table(sets, rows, [](const Measured &it) { return format("%.2f", it.read); });
    text += "\n## Damaged bytes\n\n"
            "The bytes of one set with one change: a byte set to another, a bit flipped, cut, or two bytes exchanged, in turn, at random places and never without effect. Of a store, its whole "
            "file, which holds that set alone. They are read in processes of their own, the bytes and the ids at the end of the memory that may be touched (StreamVByte may read 16 bytes further, sdsl a word); a reader that takes " +
            std::to_string(MOST_SECONDS) + " s is stopped.\n\n"
            "- refused: the reader says that it can't read this.\n"
            "- no set: it answers ids that don't ascend or reach N, as a caller finds who tests them.\n"
            "- taken for a set: it answers ids that ascend and are below N. Another set: not the one that was written.\n"
            "- by no writer: taken for a set, but the same peer writes other bytes for the ids that it read; trailing bytes are left aside. A store's file has no one form, so it isn't asked.\n"
            "- crashed: the process ended, as where the reader leaves its memory; stopped: it took too long.\n\n"
            "No form here has a checksum: bytes that are changed into those of another set are read as that set, by Roadfinch too. Of Roadfinch the column \"by no writer\" is 0 by proof.\n\n";
    return text + damage_tables(folder);
}

} // namespace peers

int main(int count, char **named) {
    if (count < 2) {
        std::fputs("usage: peers FILE [PACKAGE=VERSION..]\n", stderr);
        return 2;
    }
    auto &list = peers::all();
    std::sort(list.begin(), list.end(), [](const peers::Listed &a, const peers::Listed &b) { return a.place < b.place; });
    std::string folder = "/tmp/peers-XXXXXX";
    if (!mkdtemp(folder.data())) {
        std::perror(folder.c_str());
        return 1;
    }
    std::string text = peers::page(count - 2, named + 2, folder);
    for (const auto &peer : list) {
        if (peer.store) peers::remove_store(folder + "/" + peer.store->name());
    }
    rmdir(folder.c_str());
    std::ofstream file(named[1]);
    file << text;
    file.close();
    if (!file) {
        std::perror(named[1]);
        return 1;
    }
    std::printf("written: docs/PEERS.md\n");
}
