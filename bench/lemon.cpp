// Circulations of greatest value by LEMON's network simplex, to be timed beside the library's own.
//
// It reads the number of assets, and the lower and the upper bound of each ordered pair, by the asset sold.
// It prints the least time of several runs in nanoseconds, from the numbers to the answer, and then "traded"
// and the value, or "cut" if there is no circulation. Values are 64-bit: a bound from 2^56 on is refused.
//
//     g++ -O2 -o lemon lemon.cpp     (Debian: liblemon-dev)
#include <lemon/network_simplex.h>
#include <lemon/smart_graph.h>

#include <algorithm>
#include <chrono>
#include <cstdint>
#include <iostream>
#include <optional>
#include <vector>

using Graph = lemon::SmartDigraph;
using Simplex = lemon::NetworkSimplex<Graph, std::int64_t, std::int64_t>;

constexpr int RUNS = 20;
constexpr std::int64_t MOST = std::int64_t{1} << 56;

struct Pair {
    int sell, buy;
    std::int64_t low, high;
};

// The value of the greatest circulation, if there is one.
std::optional<std::int64_t> solve(int assets, const std::vector<Pair> &pairs) {
    Graph graph;
    std::vector<Graph::Node> nodes;
    for (int asset = 0; asset < assets; ++asset) nodes.push_back(graph.addNode());
    Graph::ArcMap<std::int64_t> low(graph), high(graph), cost(graph);
    for (const Pair &pair : pairs) {
        Graph::Arc arc = graph.addArc(nodes[pair.sell], nodes[pair.buy]);
        low[arc] = pair.low;
        high[arc] = pair.high;
        cost[arc] = -1;
    }
    Simplex simplex(graph);
    simplex.lowerMap(low).upperMap(high).costMap(cost);
    if (simplex.run() != Simplex::OPTIMAL) return std::nullopt;
    return -simplex.totalCost<std::int64_t>();
}

int main() {
    int assets;
    if (!(std::cin >> assets)) return 1;
    std::vector<Pair> pairs;
    for (int sell = 0; sell < assets; ++sell) {
        for (int buy = 0; buy < assets; ++buy) {
            Pair pair{sell, buy, 0, 0};
            if (!(std::cin >> pair.low >> pair.high) || pair.high >= MOST) return 1;
            if (sell != buy) pairs.push_back(pair);
        }
    }
    std::int64_t least = INT64_MAX;
    std::optional<std::int64_t> value;
    for (int run = 0; run < RUNS; ++run) {
        auto start = std::chrono::steady_clock::now();
        value = solve(assets, pairs);
        std::int64_t taken = (std::chrono::steady_clock::now() - start) / std::chrono::nanoseconds(1);
        least = std::min(least, taken);
    }
    std::cout << least << " ns ";
    if (value) {
        std::cout << "traded " << *value << "\n";
    } else {
        std::cout << "cut\n";
    }
}
