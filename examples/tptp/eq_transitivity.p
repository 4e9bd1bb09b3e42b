% status: Theorem
% uses: f_ab f_bc goal
fof(f_ab, axiom, a = b).
fof(f_bc, axiom, b = c).
fof(goal, conjecture, a = c).
