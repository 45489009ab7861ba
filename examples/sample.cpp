// A plate with a boss, from its mesh to its plan: c++ -Iinclude examples/sample.cpp target/staticlib/libmandrikelo.a -o sample
// It prints examples/sample.out, as examples/sample.c and examples/sample.py do. docs/USING.md says what the numbers mean.
#include <array>
#include <cstdio>
#include <stdexcept>
#include <string>
#include <vector>
#include "mandrikelo.h"

using Corner = std::array<double, 3>;

static void passed(std::uint32_t refusal)
{
    if (refusal)
        throw std::runtime_error("refused " + std::to_string(refusal) + ", " + mandrikelo_refusal_text(refusal));
}

struct Part {
    std::vector<double> mesh, boxes;
    std::vector<std::uint32_t> starts, members, marks; // of these only the marks are written by questions
    double measures[6];
    std::uint32_t sizes[3];
    std::size_t n() const { return mesh.size() / 9; }

    // A face of four corners, as two triangles.
    void face(const std::array<Corner, 4> &p)
    {
        for (std::size_t i : {0, 1, 2, 0, 2, 3})
            mesh.insert(mesh.end(), p[i].begin(), p[i].end());
    }
    // The top and the four walls of a block.
    void block(double x0, double y0, double x1, double y1, double low, double top)
    {
        const std::array<Corner, 4> p = {{{{x0, y0, top}}, {{x1, y0, top}}, {{x1, y1, top}}, {{x0, y1, top}}}};
        face(p);
        for (std::size_t i = 0; i < 4; i++) {
            const Corner &a = p[i], &b = p[(i + 1) % 4];
            face({{{{a[0], a[1], low}}, {{b[0], b[1], low}}, b, a}});
        }
    }
    // The index, in tables of the size that it needs.
    void build(double floor, double r)
    {
        std::size_t rooms[2];
        passed(mandrikelo_rooms(mesh.data(), mesh.size(), floor, r, rooms));
        starts.resize(rooms[0]);
        members.resize(rooms[1]);
        marks.resize(n());
        boxes.resize(5 * n());
        std::uint32_t bad[2];
        passed(mandrikelo_build(mesh.data(), mesh.size(), floor, r, starts.data(), starts.size(), members.data(), members.size(),
            boxes.data(), boxes.size(), measures, sizes, bad));
    }
    // Calls a question or the plan: what all of them are handed comes first.
    template <class Door, class... Rest> std::uint32_t ask(Door door, Rest... rest)
    {
        return door(mesh.data(), mesh.size(), measures, sizes, starts.data(), starts.size(), members.data(), members.size(), boxes.data(),
            boxes.size(), marks.data(), marks.size(), rest...);
    }
};

int main()
{
    Part part;
    part.block(0, 0, 40, 30, 0, 10);
    part.block(15, 10, 25, 20, 10, 14);
    std::printf("version %u\n", mandrikelo_version());
    part.build(0, 3);
    const auto *s = part.sizes;
    std::printf("%u triangles in %u by %u cells, %u members\n", s[0], s[1], s[2], part.starts[std::size_t(s[1]) * s[2]]);

    std::uint32_t counts[3], on[3]; // what is touched; and the stamp that comes back goes into the next question
    double high[1], tip[1], lengths[2];
    passed(part.ask(mandrikelo_max_height, 0, 13, 15, 13, 15, 3, high, counts, on));
    passed(part.ask(mandrikelo_max_height, counts[1], 10, 15, 10, 15, 3, tip, counts, on));
    std::printf("disk of radius 3: %.3f beside the boss, %.3f off it\n", high[0], tip[0]);
    const std::vector<double> drill = {0, 0, 3, 1.8 / 3}; // its tip is 1.8 high at the radius 3: rise is the slope
    passed(part.ask(mandrikelo_max_sections, counts[1], 12, 15, drill.data(), drill.size(), tip, counts, on));
    std::printf("drill of radius 3, 1.8 high: tip %.3f beside the boss\n", tip[0]);
    std::uint32_t stamp = counts[1];
    for (int lift = 0; lift < 2; lift++, stamp = counts[2]) {
        passed(part.ask(mandrikelo_bull_chord_clear, stamp, 4, 15, 10.5, 10, 15, 10.5, 3, 1, lift, counts));
        std::printf("tip at 10.5 over the face at 10, lift %d: %s\n", lift, counts[0] == 1 ? "clear" : "blocked");
    }

    std::vector<double> parameters = {0.001, 0.01, 0, 0.25, 0, 20, 30}, levels(5 * part.n()), runs(5);
    auto plan = [&] { return part.ask(mandrikelo_plan, parameters.data(), 0, levels.data(), levels.size(), runs.data(), runs.size(), lengths, counts); };
    std::printf("stepover %.0f: refused %u\n", parameters[2], plan());
    parameters[2] = 4;
    std::uint32_t refusal;
    while ((refusal = plan()) == MANDRIKELO_REFUSED_RUNS)
        runs.resize(2 * runs.size());
    passed(refusal);
    std::printf("%u levels, %u rows, %u runs; cut %.3f, dropped %.3f\n", counts[0], counts[1], counts[2], lengths[0], lengths[1]);
    std::printf("first run from %.3f, %.3f to %.3f, %.3f at %.3f, its level at %.3f\n", runs[0], runs[1], runs[2], runs[3], runs[4], levels[0]);
}
