% status: Theorem
% uses: f_t goal
fof(f_t, axiom, $true => q).
fof(goal, conjecture, q & ~ $false).
