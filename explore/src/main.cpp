// explore: looks for a fault in the protocol of an engine around the coordinator. It prints the trace of the fault, or that there is none.
// Its status is 0 (none was found), 1 (a fault) or 2 (its own).
#include "scope.hpp"
#include "search.hpp"

int main(int argc, char **argv) {
    read_scope(argc, argv);
    return scope.runs ? run_randomly() : search();
}
