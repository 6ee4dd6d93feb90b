// Two libraries' greatest flows on the plain router's network: LEMON's Preflow and Boost's Boykov-Kolmogorov, where their headers are installed
// (Debian's liblemon-dev and libboost-graph-dev). Both find the greatest number alone. LEMON's network simplex finds the least length.
#ifndef PEERS_H
#define PEERS_H

#include "baseline.h"

#if __has_include(<lemon/preflow.h>)
#define HAS_LEMON 1
#include <lemon/network_simplex.h>
#include <lemon/preflow.h>
#include <lemon/smart_graph.h>
#pragma GCC diagnostic ignored "-Wmaybe-uninitialized" // LEMON adds an arc and then fills it in
#endif

#if __has_include(<boost/graph/boykov_kolmogorov_max_flow.hpp>)
#define HAS_BOOST 1
#include <boost/graph/adjacency_list.hpp>
#include <boost/graph/boykov_kolmogorov_max_flow.hpp>
#endif

namespace peers {

struct Peer {
    const char *name;
    int (*greatest)(const baseline::Job &);
};

#ifdef HAS_LEMON
inline int preflow(const baseline::Job &job) {
    lemon::SmartDigraph graph;
    std::vector<int> room;
    graph.reserveNode(baseline::nodes);
    for (int i = 0; i < baseline::nodes; i++) graph.addNode();
    const auto arc = [&](int a, int b, int limit) {
        if (limit == 0) return;
        graph.addArc(graph.nodeFromId(a), graph.nodeFromId(b));
        room.push_back(limit);
    };
    baseline::links(job, [&](int a, int b, int forth, int back, int) { arc(a, b, forth), arc(b, a, back); });
    lemon::SmartDigraph::ArcMap<int> limits(graph);
    for (std::size_t i = 0; i < room.size(); i++) limits[graph.arcFromId(static_cast<int>(i))] = room[i];
    lemon::Preflow<lemon::SmartDigraph> search(graph, limits, graph.nodeFromId(baseline::source), graph.nodeFromId(baseline::outside));
    search.runMinCut();
    return search.flowValue();
}

// The least total length of a wire for every chosen pin; -1 where there is none.
inline long networkSimplex(const baseline::Job &job) {
    lemon::SmartDigraph graph;
    std::vector<int> room, count;
    graph.reserveNode(baseline::nodes);
    for (int i = 0; i < baseline::nodes; i++) graph.addNode();
    const auto arc = [&](int a, int b, int limit, int length) {
        if (limit == 0) return;
        graph.addArc(graph.nodeFromId(a), graph.nodeFromId(b));
        room.push_back(limit);
        count.push_back(length);
    };
    const int chosen = baseline::links(job, [&](int a, int b, int forth, int back, int length) { arc(a, b, forth, length), arc(b, a, back, length); });
    lemon::SmartDigraph::ArcMap<int> limits(graph), lengths(graph);
    for (std::size_t i = 0; i < room.size(); i++) {
        limits[graph.arcFromId(static_cast<int>(i))] = room[i];
        lengths[graph.arcFromId(static_cast<int>(i))] = count[i];
    }
    lemon::NetworkSimplex<lemon::SmartDigraph, int, int> search(graph);
    search.upperMap(limits).costMap(lengths).stSupply(graph.nodeFromId(baseline::source), graph.nodeFromId(baseline::outside), chosen);
    if (search.run() != search.OPTIMAL) return -1;
    return search.totalCost<long>();
}
#endif

#ifdef HAS_BOOST
inline int boykovKolmogorov(const baseline::Job &job) {
    using Plain = boost::adjacency_list_traits<boost::vecS, boost::vecS, boost::directedS>;
    struct Dart {
        int limit, left;
        Plain::edge_descriptor reverse;
    };
    using Graph = boost::adjacency_list<boost::vecS, boost::vecS, boost::directedS, boost::no_property, Dart>;
    Graph graph(baseline::nodes);
    baseline::links(job, [&](int a, int b, int forth, int back, int) {
        const auto there = boost::add_edge(a, b, graph).first, here = boost::add_edge(b, a, graph).first;
        graph[there] = {forth, 0, here};
        graph[here] = {back, 0, there};
    });
    std::vector<Plain::edge_descriptor> before(baseline::nodes);
    std::vector<boost::default_color_type> colours(baseline::nodes);
    std::vector<int> depths(baseline::nodes);
    return boost::boykov_kolmogorov_max_flow(graph, boost::get(&Dart::limit, graph), boost::get(&Dart::left, graph), boost::get(&Dart::reverse, graph),
                                             before.data(), colours.data(), depths.data(), boost::get(boost::vertex_index, graph), baseline::source,
                                             baseline::outside);
}
#endif

// Those whose headers are installed; the others are named on standard error.
inline std::vector<Peer> installed() {
    std::vector<Peer> all;
#ifdef HAS_LEMON
    all.push_back({"LEMON's Preflow", preflow});
#else
    std::fprintf(stderr, "LEMON's Preflow is not measured: liblemon-dev is not installed\n");
#endif
#ifdef HAS_BOOST
    all.push_back({"Boost's Boykov-Kolmogorov", boykovKolmogorov});
#else
    std::fprintf(stderr, "Boost's Boykov-Kolmogorov is not measured: libboost-graph-dev is not installed\n");
#endif
    return all;
}

} // namespace peers

#endif
