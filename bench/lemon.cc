// Times LEMON's network simplex on the fits of bench/fits.c: lemon SECONDS < CASES
//
// A case is a line: the letters, a blank, the path of the chip. Each case is solved once and its answer printed,
// `yes LENGTH` or `no`. Then all cases are solved in turn until SECONDS of processor time have passed. The last
// line has the microseconds of one case: the graphs of both axes, built from nothing, and their flows. The
// reading of the chips is not in it.
//
// An axis of a fit: the values of the die's corner, the macros and each net's two ends are to keep lower bounds
// on their differences, and the weighted spreads of the nets are to be least. Its dual is a flow of least cost:
// a node for each value, an arc for each bound, which costs what the bound is less than 0, and each net sends
// its weight from its low end to its high end. Where no values keep the bounds, the cost has no least.
#include <array>
#include <cstdio>
#include <cstdlib>
#include <fstream>
#include <iostream>
#include <sstream>
#include <string>
#include <vector>

#include <lemon/network_simplex.h>
#include <lemon/smart_graph.h>

#include "clock.h"

using Graph = lemon::SmartDigraph;
using Simplex = lemon::NetworkSimplex<Graph, int>;

struct Net {
    int weight;
    std::vector<std::array<int, 3>> pins;  // macro, x, y
};

struct Case {
    std::string letters;
    std::array<int, 2> die;
    std::vector<std::array<int, 4>> fixes;  // x, y, w, h
    std::vector<std::array<int, 2>> macros;
    std::vector<Net> nets;
};

static std::vector<Case> cases;

// The values of a line of a chip file, without the word and the names.
static std::vector<int> values_of(const std::string &line) {
    std::vector<int> values;
    std::stringstream parts(line);
    std::string part;
    for (int k = 0; std::getline(parts, part, ','); k++)
        if (k >= 2 && k % 2 == 0)
            values.push_back(std::stoi(part));
    return values;
}

static void read_line(const std::string &line, Case &one) {
    const std::vector<int> v = values_of(line);
    const std::string word = line.substr(0, line.find(','));
    if (word == "die")
        one.die = {v[0], v[1]};
    else if (word == "fix")
        one.fixes.push_back({v[0], v[1], v[2], v[3]});
    else if (word == "mac")
        one.macros.push_back({v[0], v[1]});
    else if (word == "net")
        one.nets.push_back({v[0], {}});
    else if (word == "pin")
        one.nets.back().pins.push_back({v[0], v[1], v[2]});
}

static bool read_case(const std::string &line) {
    const size_t blank = line.find(' ');
    std::ifstream file(blank == std::string::npos ? "" : line.substr(blank + 1));
    Case one;
    one.letters = line.substr(0, blank);
    for (std::string text; std::getline(file, text);)
        read_line(text, one);
    cases.push_back(one);
    return file.eof();
}

// The graph of an axis. Node 0 is the die's corner, then come the macros, then a high and a low end for each net.
class Axis {
  public:
    Axis(const Case &one, int axis) : one(one), axis(axis), macros(one.macros.size()) {
        const int nodes = high_end(one.nets.size());
        graph.reserveNode(nodes);
        for (int k = 0; k < nodes; k++)
            graph.addNode();
        put_die();
        put_letters();
        put_nets();
    }

    // Whether there is a fit; its length is added.
    bool solve(long long &length) {
        Graph::ArcMap<int> costs(graph);
        Graph::NodeMap<int> supplies(graph, 0);
        for (size_t k = 0; k < bounds.size(); k++)
            costs[Graph::arcFromId(k)] = -bounds[k];
        for (size_t k = 0; k < one.nets.size(); k++) {
            supplies[Graph::nodeFromId(high_end(k))] = -one.nets[k].weight;
            supplies[Graph::nodeFromId(low_end(k))] = one.nets[k].weight;
        }
        Simplex simplex(graph);
        if (simplex.costMap(costs).supplyMap(supplies).run() != Simplex::OPTIMAL)
            return false;
        length -= simplex.totalCost<long long>();
        return true;
    }

  private:
    const Case &one;
    const int axis, macros;
    Graph graph;
    std::vector<int> bounds;  // of the arcs, in their order

    int high_end(int net) const { return 1 + macros + 2 * net; }
    int low_end(int net) const { return high_end(net) + 1; }

    // The value of `to` is at least that of `from` and `bound` more.
    void put(int from, int to, int bound) {
        graph.addArc(Graph::nodeFromId(from), Graph::nodeFromId(to));
        bounds.push_back(bound);
    }

    void put_die() {
        for (int m = 1; m <= macros; m++) {
            put(0, m, 0);
            put(m, 0, one.macros[m - 1][axis] - one.die[axis]);
        }
    }

    void put_letters() {
        const char low = "LB"[axis], high = "RA"[axis];
        const char *letter = one.letters.data();
        for (int a = 1; a <= macros; a++)
            for (int b = a + 1; b <= macros; b++, letter++)
                if (*letter == low)
                    put(a, b, one.macros[a - 1][axis]);
                else if (*letter == high)
                    put(b, a, one.macros[b - 1][axis]);
        for (int a = 1; a <= macros; a++)
            for (size_t f = 0; f < one.fixes.size(); f++, letter++)
                if (*letter == low)
                    put(a, 0, one.macros[a - 1][axis] - one.fixes[f][axis]);
                else if (*letter == high)
                    put(0, a, one.fixes[f][axis] + one.fixes[f][axis + 2]);
    }

    void put_nets() {
        for (size_t k = 0; k < one.nets.size(); k++)
            for (const auto &pin : one.nets[k].pins) {
                put(pin[0], high_end(k), pin[axis + 1]);
                put(low_end(k), pin[0], -pin[axis + 1]);
            }
    }
};

static bool solve(const Case &one, long long &length) {
    length = 0;
    return Axis(one, 0).solve(length) && Axis(one, 1).solve(length);
}

static void solve_all() {
    long long length;
    for (const Case &one : cases)
        solve(one, length);
}

int main(int count, char **words) {
    for (std::string line; std::getline(std::cin, line);)
        if (!read_case(line))
            return std::fprintf(stderr, "case %zu: not letters, a blank and a chip\n", cases.size()), 2;
    if (count != 2 || cases.empty())
        return std::fprintf(stderr, "usage: lemon SECONDS < CASES\n"), 2;
    for (const Case &one : cases) {
        long long length;
        if (solve(one, length))
            std::printf("yes %lld\n", length);
        else
            std::printf("no\n");
    }
    std::printf("%.3f\n", microseconds(std::atof(words[1]), solve_all) / cases.size());
}
