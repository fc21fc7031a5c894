% Peirce's law holds classically.
fof(peirce,conjecture,
    ((p => q) => p) => p).
