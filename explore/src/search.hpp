// The two ways to explore: all states of a scope, level by level, or random runs.
#ifndef EXPLORE_SEARCH_HPP
#define EXPLORE_SEARCH_HPP

// Visits all states, so the first fault that it finds has a shortest trace. Returns the program's status.
int search();
// Makes random runs, and replays the log at each crash. Returns the program's status.
int run_randomly();

#endif
