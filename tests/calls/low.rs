//! Values from outside; the own path against all paths, one by one, and against the search by layers.

mod agreement;
mod all_paths;
mod both_directions;
mod constraint_sets;
mod given_distances;
mod given_paths;
mod map_files;
mod single_constraints;
mod taken_states;
mod two_searches;
