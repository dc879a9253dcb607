// What the reads of the library say of a coordinator.
#ifndef EXPLORE_READS_HPP
#define EXPLORE_READS_HPP

#include "library.hpp"

Facts facts_of(relkvanu *handle);

#endif
