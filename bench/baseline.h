// A plain router for comparison: Dinic's greatest flow on document 01's network, each centre and missing pin split into entry and exit. It proves nothing,
// finds the greatest number only, and trusts the text that it reads.
#ifndef BASELINE_H
#define BASELINE_H

#include <algorithm>
#include <cstdio>
#include <cstring>
#include <limits>
#include <numeric>
#include <string>
#include <vector>

namespace baseline {

constexpr int unlimited = std::numeric_limits<int>::max() / 2;

// A network of darts; dart d ^ 1 is the reverse of dart d. The darts out of a node stand together in `darts`.
class Network {
public:
    explicit Network(int nodes) : first(nodes + 1), depth(nodes), next(nodes) {}

    // A link from a to b with the limit `forth`, and back with the limit `back`.
    void link(int a, int b, int forth, int back) {
        head.insert(head.end(), {b, a});
        room.insert(room.end(), {forth, back});
    }

    int greatest(int source, int sink) {
        gather();
        int flow = 0;
        while (measure(source, sink)) {
            std::copy(first.begin(), first.end() - 1, next.begin());
            while (int more = push(source, sink, unlimited)) flow += more;
        }
        return flow;
    }

private:
    // The darts by their tails.
    void gather() {
        darts.resize(head.size());
        for (std::size_t d = 0; d < head.size(); d++) first[head[d ^ 1] + 1]++;
        std::partial_sum(first.begin(), first.end(), first.begin());
        std::copy(first.begin(), first.end() - 1, next.begin());
        for (std::size_t d = 0; d < head.size(); d++) darts[next[head[d ^ 1]]++] = static_cast<int>(d);
    }

    // Depths towards the sink, breadth first, as far as the source.
    bool measure(int source, int sink) {
        std::fill(depth.begin(), depth.end(), unlimited);
        depth[sink] = 0;
        queue.assign(1, sink);
        for (std::size_t i = 0; i < queue.size() && depth[source] == unlimited; i++) {
            const int v = queue[i];
            for (int k = first[v]; k < first[v + 1]; k++) {
                const int u = head[darts[k]];
                if (room[darts[k] ^ 1] == 0 || depth[u] != unlimited) continue;
                depth[u] = depth[v] + 1;
                queue.push_back(u);
            }
        }
        return depth[source] != unlimited;
    }

    // As much of `most` as one path of falling depth takes.
    int push(int u, int sink, int most) {
        if (u == sink) return most;
        for (int &k = next[u]; k < first[u + 1]; k++) {
            const int d = darts[k];
            if (room[d] == 0 || depth[head[d]] != depth[u] - 1) continue;
            if (const int more = push(head[d], sink, std::min(most, room[d]))) {
                room[d] -= more;
                room[d ^ 1] += more;
                return more;
            }
        }
        return 0;
    }

    std::vector<int> first, depth, next, head, room, darts, queue;
};

struct Job {
    int rows = 0, columns = 0, o = 0, d = 0, e = 0;
    std::vector<int> mark, state; // 40 to a row
};

inline bool read(const std::string &text, Job &job) {
    job.mark.assign(1600, 0);
    job.state.assign(1600, 0);
    for (const char *line = text.c_str(); *line;) {
        int r, c;
        if (std::sscanf(line, "(array (pins %d %d) (caps %d %d %d))", &job.rows, &job.columns, &job.o, &job.d, &job.e) == 5) {
        } else if (std::sscanf(line, "(chosen %d %d)", &r, &c) == 2) {
            job.mark[40 * r + c] = 1;
        } else if (std::sscanf(line, "(missing %d %d)", &r, &c) == 2) {
            job.mark[40 * r + c] = 2;
        } else if (std::sscanf(line, "(closed %d %d)", &r, &c) == 2) {
            job.state[40 * r + c] = 1;
        } else {
            return std::strcmp(line, "(end)\n") == 0;
        }
        const char *end = std::strchr(line, '\n');
        if (!end) return false;
        line = end + 1;
    }
    return false;
}

struct Answer {
    int chosen, greatest;
};

constexpr int source = 8 * 1600, outside = source + 1, nodes = outside + 1;

// The links of a job, each handed to `link` with its two nodes, its limit, the limit of the way back and its length, 10 for a side and 14 through a missing pin; how
// many pins are chosen.
template <class Link> int links(const Job &job, const Link &link) {
    enum { entry, leave, north, east, south, west, centreIn, centreOut };
    auto at = [](int kind, int r, int c) { return 8 * (40 * r + c) + kind; };
    auto inside = [&](int r, int c) { return 0 <= r && r < job.rows - 1 && 0 <= c && c < job.columns - 1; };
    auto open = [&](int r, int c) { return inside(r, c) && job.state[40 * r + c] == 0; };
    const int half = job.o / 2;
    for (int r = 0; r < job.rows - 1; r++) {
        for (int c = 0; c < job.columns - 1; c++) {
            if (!open(r, c)) continue;
            for (int k = 0; k < 4; k++) link(at(north + k, r, c), at(north + (k + 1) % 4, r, c), half, half, 0);
            for (int k = 0; k < 4; k++) link(at(north + k, r, c), at(centreIn, r, c), unlimited, 0, 0);
            for (int k = 0; k < 4; k++) link(at(centreOut, r, c), at(north + k, r, c), unlimited, 0, 0);
            link(at(centreIn, r, c), at(centreOut, r, c), job.d - 2 * half, 0, 0);
            if (open(r + 1, c)) link(at(south, r, c), at(north, r + 1, c), job.o, job.o, 10);
            if (open(r, c + 1)) link(at(east, r, c), at(west, r, c + 1), job.o, job.o, 10);
            if (!inside(r - 1, c)) link(at(north, r, c), outside, job.o, 0, 10);
            if (!inside(r + 1, c)) link(at(south, r, c), outside, job.o, 0, 10);
            if (!inside(r, c - 1)) link(at(west, r, c), outside, job.o, 0, 10);
            if (!inside(r, c + 1)) link(at(east, r, c), outside, job.o, 0, 10);
        }
    }
    int chosen = 0;
    for (int r = 0; r < job.rows; r++) {
        for (int c = 0; c < job.columns; c++) {
            const int mark = job.mark[40 * r + c];
            if (mark == 0) continue;
            // n of the tile whose NW corner the pin is, e where it is NE, s where SE, w where SW
            const int tiles[4][3] = {{r, c, north}, {r, c - 1, east}, {r - 1, c - 1, south}, {r - 1, c, west}};
            for (const auto &[tr, tc, k] : tiles) {
                if (!open(tr, tc)) continue;
                link(at(leave, r, c), at(k, tr, tc), mark == 1 ? 1 : unlimited, 0, 0);
                if (mark == 2) link(at(k, tr, tc), at(entry, r, c), unlimited, 0, 0);
            }
            if (mark == 2) link(at(entry, r, c), at(leave, r, c), job.e, 0, 14);
            if (mark == 1) {
                link(source, at(leave, r, c), 1, 0, 0);
                // straight out of the first and last rows and columns
                if (r == 0 || r == job.rows - 1 || c == 0 || c == job.columns - 1) link(at(leave, r, c), outside, 1, 0, 0);
                chosen++;
            }
        }
    }
    return chosen;
}

inline Answer route(const Job &job) {
    Network net(nodes);
    const int chosen = links(job, [&](int a, int b, int forth, int back, int) { net.link(a, b, forth, back); });
    return {chosen, net.greatest(source, outside)};
}

} // namespace baseline

#endif
