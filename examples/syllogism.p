% All Greeks are human, all humans are mortal, so all Greeks are mortal.
fof(greeks,axiom,! [X] : (greek(X) => human(X))).
fof(humans,axiom,! [X] : (human(X) => mortal(X))).
fof(goal,conjecture,! [X] : (greek(X) => mortal(X))).
