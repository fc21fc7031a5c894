% Statements of another file, by its name from the folder where the program runs.
include('examples/axioms/traffic.ax').
fof(exactly_one,conjecture,green_north <~> green_east).
