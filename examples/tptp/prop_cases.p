% status: Theorem
% uses: f_or f_l f_r goal
fof(f_or, axiom, a | b).
fof(f_l, axiom, a => c).
fof(f_r, axiom, b => c).
fof(goal, conjecture, c).
