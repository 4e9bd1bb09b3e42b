% status: Theorem
% uses: f_5 f_3 goal
fof(f_5, axiom, f(f(f(f(f(a))))) = a).
fof(f_3, axiom, f(f(f(a))) = a).
fof(goal, conjecture, f(a) = a).
