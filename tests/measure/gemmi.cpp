// Gemmi's operations of a Hall symbol, for beside.c: without the points of the lattice, as the port and the Rust list them.
#include <cstdint>
#include <gemmi/symmetry.hpp>

extern "C" std::uint64_t gemmi_operations(const char *text) {
    return gemmi::symops_from_hall(text).sym_ops.size();
}
