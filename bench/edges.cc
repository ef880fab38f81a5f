// The peer of bench/values for edges: the same edges in std::map, by pairs of source and id, by triples of target, source and
// id, and counted by pairs of source and name. `EDGES`, `EDGES near` and `EDGES hold` are those of crates/bench_edges.
#include <chrono>
#include <cstdint>
#include <cstdio>
#include <cstdlib>
#include <map>
#include <string>
#include <tuple>
#include <utility>
#include <vector>

struct Edge { std::string source, id, name, target; uint64_t payload; };
using Pair = std::pair<std::string, std::string>;
using Triple = std::tuple<std::string, std::string, std::string>;

static uint64_t mixed(uint64_t x) {
    x += 0x9E3779B97F4A7C15u;
    x = (x ^ (x >> 30)) * 0xBF58476D1CE4E5B9u;
    x = (x ^ (x >> 27)) * 0x94D049BB133111EBu;
    return x ^ (x >> 31);
}

struct Graph {
    std::vector<std::string> twins, names{"contains", "feeds", "controls", "isNextTo"};
    bool near;
    Graph(uint64_t edges, bool near) : near(near) {
        char text[32];
        for (uint64_t k = 0; k < edges / 4; k++) { snprintf(text, sizeof text, "twin-%07llu", (unsigned long long)k); twins.push_back(text); }
    }
    Edge edge(uint64_t k) const {
        char id[32];
        snprintf(id, sizeof id, "rel-%07llu", (unsigned long long)k);
        uint64_t x = k * 4, source = near ? k / 4 : mixed(x), name = near ? k % 4 : mixed(x + 1), target = near ? k / 4 + 1 + k % 4 : mixed(x + 2);
        return {twins[source % twins.size()], id, names[name % names.size()], twins[target % twins.size()], mixed(x + 3)};
    }
};

struct Rels {
    std::map<Pair, Edge> edges;
    std::map<Triple, const Edge*> links;
    std::map<Pair, uint64_t> counts;

    void leave(const Edge& e) {
        links.erase(Triple(e.target, e.source, e.id));
        auto at = counts.find(Pair(e.source, e.name));
        if (--at->second == 0) counts.erase(at);
    }
    void put(Edge&& e) {
        Pair key(e.source, e.id);
        auto [at, added] = edges.try_emplace(std::move(key));
        if (!added) leave(at->second);
        at->second = std::move(e);
        const Edge& edge = at->second;
        links.emplace(Triple(edge.target, edge.source, edge.id), &edge);
        ++counts[Pair(edge.source, edge.name)];
    }
    Edge remove(std::map<Pair, Edge>::iterator at) {
        leave(at->second);
        Edge e = std::move(at->second);
        edges.erase(at);
        return e;
    }
};

static auto start = std::chrono::steady_clock::now();
static void tell(const char* part, uint64_t sum) {
    auto now = std::chrono::steady_clock::now();
    printf("%s %llu %lld\n", part, (unsigned long long)sum, (long long)std::chrono::duration_cast<std::chrono::nanoseconds>(now - start).count());
    start = std::chrono::steady_clock::now();
}

int main(int argc, char** argv) {
    if (argc < 2) return 2;
    uint64_t edges = strtoull(argv[1], nullptr, 10), sum = 0;
    bool hold = argc > 2 && std::string(argv[2]) == "hold", near = argc > 2 && !hold;
    Graph graph(edges, near);
    Rels rels;
    if (hold) {
        for (uint64_t k = 0; k < edges; k++) rels.put(graph.edge(k));
        printf("held %zu\n", rels.edges.size());
        return 0;
    }
    std::vector<Edge> made;
    std::vector<Pair> queries;
    std::vector<Pair> firsts, counted;
    std::vector<Triple> first_links;
    for (uint64_t k = 0; k < edges; k++) { made.push_back(graph.edge(k)); queries.emplace_back(made.back().source, made.back().id); }
    for (auto& twin : graph.twins) {
        firsts.emplace_back(twin, "");
        first_links.emplace_back(twin, "", "");
        for (auto& name : graph.names) counted.emplace_back(twin, name);
    }
    start = std::chrono::steady_clock::now();
    for (auto& e : made) rels.put(std::move(e));
    tell("put", rels.edges.size());
    sum = 0;
    for (auto& q : queries) { auto at = rels.edges.find(q); if (at != rels.edges.end()) sum += at->second.payload; }
    tell("get", sum);
    sum = 0;
    for (auto& f : firsts) for (auto at = rels.edges.lower_bound(f); at != rels.edges.end() && at->first.first == f.first; ++at) sum += at->second.payload;
    tell("out", sum);
    sum = 0;
    for (auto& f : first_links) for (auto at = rels.links.lower_bound(f); at != rels.links.end() && std::get<0>(at->first) == std::get<0>(f); ++at) sum += at->second->payload;
    tell("into", sum);
    sum = 0;
    for (auto& q : counted) { auto at = rels.counts.find(q); if (at != rels.counts.end()) sum += at->second; }
    tell("count", sum);
    sum = 0;
    for (auto& q : queries) { auto at = rels.edges.find(q); if (at != rels.edges.end()) sum += rels.remove(at).payload; }
    tell("remove", sum + rels.edges.size());
    return 0;
}
