// The verdict on a plan by a minimum cost flow, with the LEMON graph library: what a programmer would write who has a good library and no proof. The
// benchmark holds the proved call against it.
//
// The plan fills every place of every node. Every node is split into its places, one for each of its pairs in the plan. A unit of flow starts at each
// place of a stand and ends at a place of a surveyor, and tells what another plan has there: the plan's own pair, kept; a pair that is not in the plan,
// through an arc of capacity 1 between two nodes of its own; or nothing, by way of a node for empty places. A place that faces another pair, or nothing,
// costs `scale` times its vote; a pair that is kept costs 1. With `scale` above the number of pairs the least cost is below that number exactly if some
// other plan has a vote of at most 0, and it is negative exactly if one has a vote below 0.

#include <cstdint>
#include <memory>
#include <utility>
#include <vector>

#include <malloc.h>

#include <lemon/capacity_scaling.h>
#include <lemon/config.h>
#include <lemon/network_simplex.h>
#include <lemon/static_graph.h>

namespace {

using Graph = lemon::StaticDigraph;
using Simplex = lemon::NetworkSimplex<Graph, int, int>;
using Scaling = lemon::CapacityScaling<Graph, int, int>;

constexpr int MOST_NODES = 33;
constexpr int MOST_SHIFTS = 4;

// The answers, numbered as the header's verdicts are.
enum Verdict { STRONG = 1, POPULAR = 2, BEATEN = 3 };

struct Pair {
    int surveyor, stand;
    int rank_at_surveyor, rank_at_stand;
};

// A place of the plan's pair at a node: the pair's rank there, and the place's node in the graph.
struct Place {
    int rank, node;
};

int vote(int own, int other) { return (own < other) - (own > other); }

// A roster and a plan from their bytes, which were accepted before.
struct Files {
    std::vector<Pair> pairs;
    std::vector<bool> chosen;
    int surveyors = 0, stands = 0, kept = 0;

    Files(const uint8_t *roster, const uint8_t *plan) {
        surveyors = *roster;
        roster += 1 + surveyors;
        stands = *roster;
        roster += 1 + stands;
        read_surveyors(roster);
        read_stands(roster);
        kept = *plan++;
        chosen.assign(pairs.size(), false);
        for (int k = 0; k < kept; k++, plan += 3) chosen[number[plan[0]][plan[1]][plan[2]]] = true;
    }

private:
    int number[MOST_NODES][MOST_NODES][MOST_SHIFTS];

    void read_surveyors(const uint8_t *&bytes) {
        pairs.reserve(bytes[0] + 256 * bytes[1]);
        bytes += 2;
        for (int surveyor = 1; surveyor <= surveyors; surveyor++) {
            int length = *bytes++;
            for (int rank = 1; rank <= length; rank++, bytes += 2) {
                number[surveyor][bytes[0]][bytes[1]] = static_cast<int>(pairs.size());
                pairs.push_back({surveyor, bytes[0], rank, 0});
            }
        }
    }

    void read_stands(const uint8_t *&bytes) {
        bytes += 2;
        for (int stand = 1; stand <= stands; stand++) {
            int strict = *bytes++, tied = *bytes++;
            for (int place = 0; place < strict + tied; place++, bytes += 2)
                pairs[number[bytes[0]][stand][bytes[1]]].rank_at_stand = place < strict ? place + 1 : strict + 1;
        }
    }
};

// Arcs in any order, made into a graph in the order of their beginnings, which LEMON's quickest graph asks for.
struct Arcs {
    struct Arc {
        int from, to, cost;
    };
    std::vector<Arc> arcs;
    int nodes = 0;

    void put(int from, int to, int cost) { arcs.push_back({from, to, cost}); }

    void sort() {
        std::vector<int> first(nodes + 1, 0);
        for (const Arc &arc : arcs) first[arc.from + 1]++;
        for (int node = 0; node < nodes; node++) first[node + 1] += first[node];
        std::vector<Arc> sorted(arcs.size());
        for (const Arc &arc : arcs) sorted[first[arc.from]++] = arc;
        arcs.swap(sorted);
    }
};

struct Rival {
    virtual ~Rival() {}
    virtual Verdict verdict() = 0;
};

// The graph of the flow, and the flow by one of LEMON's algorithms. Every arc has capacity 1.
template <class Flow> class RivalBy : public Rival {
    int kept;
    Graph graph;
    std::unique_ptr<Flow> flow;

    Arcs arcs_of(const Files &files) {
        const int scale = kept + 1;
        Arcs arcs;
        arcs.arcs.reserve(5 * files.pairs.size());
        std::vector<Place> at_surveyor[MOST_NODES], at_stand[MOST_NODES];
        // the places first, those of stands before those of surveyors, then the node for empty places
        const int empty = 2 * kept;
        int place = 0;
        for (size_t k = 0; k < files.pairs.size(); k++) {
            if (!files.chosen[k]) continue;
            const Pair &pair = files.pairs[k];
            const int from = place, to = kept + place;
            place++;
            arcs.put(from, to, 1);
            arcs.put(from, empty, scale);
            arcs.put(empty, to, scale);
            at_stand[pair.stand].push_back({pair.rank_at_stand, from});
            at_surveyor[pair.surveyor].push_back({pair.rank_at_surveyor, to});
        }
        arcs.nodes = empty + 1;
        for (size_t k = 0; k < files.pairs.size(); k++) {
            if (files.chosen[k]) continue;
            const Pair &pair = files.pairs[k];
            const int from = arcs.nodes++, to = arcs.nodes++;
            arcs.put(from, to, 0);
            for (const Place &at : at_stand[pair.stand]) arcs.put(at.node, from, scale * vote(at.rank, pair.rank_at_stand));
            for (const Place &at : at_surveyor[pair.surveyor]) arcs.put(to, at.node, scale * vote(at.rank, pair.rank_at_surveyor));
        }
        arcs.sort();
        return arcs;
    }

public:
    RivalBy(const uint8_t *roster, const uint8_t *plan) {
        const Files files(roster, plan);
        kept = files.kept;
        const Arcs arcs = arcs_of(files);
        std::vector<std::pair<int, int>> ends;
        ends.reserve(arcs.arcs.size());
        for (const Arcs::Arc &arc : arcs.arcs) ends.push_back({arc.from, arc.to});
        graph.build(arcs.nodes, ends.begin(), ends.end());
        Graph::ArcMap<int> cost(graph), capacity(graph, 1);
        for (size_t k = 0; k < arcs.arcs.size(); k++) cost[graph.arc(static_cast<int>(k))] = arcs.arcs[k].cost;
        Graph::NodeMap<int> supply(graph, 0);
        for (int place = 0; place < kept; place++) {
            supply[graph.node(place)] = 1;
            supply[graph.node(kept + place)] = -1;
        }
        flow.reset(new Flow(graph));
        flow->upperMap(capacity).costMap(cost).supplyMap(supply);
    }

    Verdict verdict() override {
        flow->run();
        const int least = flow->template totalCost<int>();
        return least < 0 ? BEATEN : least < kept ? POPULAR : STRONG;
    }
};

// One of the two algorithms that are quickest here, by its number.
Rival *rival(int algorithm, const uint8_t *roster, const uint8_t *plan) {
    if (algorithm == 0) return new RivalBy<Simplex>(roster, plan);
    return new RivalBy<Scaling>(roster, plan);
}

} // namespace

extern "C" {

const char *peer_version() { return LEMON_VERSION; }

// What is freed stays with the process from now on. Else the system may have to hand out the pages of every graph anew, which can take longer than to
// build and solve it, and does so by chance.
void peer_keep_memory() {
    mallopt(M_TRIM_THRESHOLD, 1 << 28);
    mallopt(M_MMAP_THRESHOLD, 1 << 28);
}

// From bytes to the verdict.
int peer_verdict(int algorithm, const uint8_t *roster, const uint8_t *plan) {
    return std::unique_ptr<Rival>(rival(algorithm, roster, plan))->verdict();
}

// The graph alone, its verdict, which may be asked for again, and its end.
void *peer_graph(int algorithm, const uint8_t *roster, const uint8_t *plan) { return rival(algorithm, roster, plan); }
int peer_solve(void *graph) { return static_cast<Rival *>(graph)->verdict(); }
void peer_drop(void *graph) { delete static_cast<Rival *>(graph); }
}
