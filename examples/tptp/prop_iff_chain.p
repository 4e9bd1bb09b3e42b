% status: Theorem
% uses: goal
fof(goal, conjecture, ((p <=> q) <=> (q <=> p))).
