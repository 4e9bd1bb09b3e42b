% status: Theorem
% uses: f_ab goal
fof(f_ab, axiom, a = b).
fof(goal, conjecture, b = a).
