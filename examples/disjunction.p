% A disjunction of two names is no theorem.
fof(either,conjecture,
    p | q).
