% Modus ponens from two premises.
fof(all,axiom,man => mortal,file('textbook',all)).
fof(one,hypothesis,man).
fof(goal,conjecture,mortal).
