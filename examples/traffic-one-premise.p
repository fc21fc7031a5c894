% One statement of another file is asked for by its name; it is not enough.
include('examples/axioms/traffic.ax',[not_both]).
fof(exactly_one,conjecture,green_north <~> green_east).
